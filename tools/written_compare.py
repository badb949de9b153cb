#!/usr/bin/python3
"""written_compare.py LINES SECTIONS: hold what sectionwrite printed (SECTIONS)
against the descriptions that it was given (LINES). tshark dissects every
section, MPE-FEC sections as tshark_compare.py shows them, and crcmod gives its
checksum. The payloads, of which tshark shows only those that it can look into,
and the fields of MPE-FEC sections as they are, are read from the bytes here.
What was refused is held against the reference. Ends with status 1 on a
difference, 2 if tshark or crcmod is missing."""
import shutil
import struct
import sys

sys.dont_write_bytecode = True
import reference_list as reference
import reference_write as writer
from tshark_compare import Comparisons


def wanted(kind, field, payload):
    """What tshark must show of the section that a line describes."""
    want = {name: field[name] for name in writer.TIMING}
    want.update(section_length=13 + len(payload), private_and_reserved=3, crc_status=1)
    if kind == "check":
        front = bytes([field["p"], 0xFF, 0xFF, field["s"], field["last"]])
        return want | {"table_id": 0x78, "front": front}
    want.update(table_id=0x3E, front=bytes([field["mac6"], field["mac5"], 0xC1, 0, 0]))
    if looked_into(field["version"], payload):
        want.update(version=field["version"], payload=payload)
    return want


def looked_into(version, payload):
    """Whether the datagram is one that IP takes, not only one of the right length:
    a header of 20 bytes and its sum, or protocol 17 (UDP) or 253 (for trials)."""
    if version == 4:
        return payload[0] == 0x45 and sum(struct.unpack(">10H", payload[:20])) % 0xFFFF == 0
    return payload[6] in (17, 253)


def section_of(answer):
    """The bytes of a line that was printed; none where they are no section in hex, upper case."""
    try:
        section = bytes.fromhex(answer)
    except ValueError:
        return None
    return section if len(section) >= 16 and section.hex().upper() == answer else None


def checksum_pairs(section):
    """(what, wanted, found): what stands in the section is held against its CRC."""
    yield "CRC_32", int.from_bytes(section[-4:], "big"), reference.crc32(section[:-4])
    yield "CRC over all", 0, reference.crc32(section)


def byte_pairs(kind, field, payload, section):
    """(what, described, read); of a datagram section tshark reads all but the payload."""
    yield "payload", payload, section[12:-4]
    if kind == "datagram":
        return
    yield "bytes 0 to 2", struct.pack(">BH", 0x78, 0xB000 | 13 + len(payload)), section[:3]
    yield "padding_columns", field["p"], section[3]
    yield "bytes 4 and 5", b"\xFF\xFF", section[4:6]
    yield "section_number", field["s"], section[6]
    yield "last_section_number", field["last"], section[7]
    for name, read in zip(writer.TIMING, reference.timing(section)):
        yield name, field[name], read


def main(lines, sections):
    with open(lines) as file:
        given = file.read().splitlines()
    with open(sections) as file:
        got = file.read().splitlines()
    comparisons = Comparisons()
    if len(given) != len(got):
        comparisons.differs(f"lines: {len(given)}, answers: {len(got)}")
    cases, not_looked_into = [], 0
    for number, (text, answer) in enumerate(zip(given, got), 1):
        name, (kind, field, payload) = f"line {number}", writer.described(text)
        if answer.startswith("refused") or writer.refusal(kind, field, payload):
            comparisons.section(name, "refused", "the reference",
                                [("answer", answer, writer.answer(text))])
            continue
        section = section_of(answer)
        if section is None:
            comparisons.differs(f"{name}: no section in hex: {answer}")
            continue
        comparisons.section(name, kind, reference.CRC_BY, checksum_pairs(section))
        comparisons.section(name, kind, "its bytes", byte_pairs(kind, field, payload, section))
        want = wanted(kind, field, payload)
        not_looked_into += kind == "datagram" and "payload" not in want
        cases.append((name, kind, section, want))
    missing = [] if reference.CRC_BY == "crcmod" else ["crcmod"]
    if shutil.which("tshark"):
        comparisons.tshark(cases)
        print(f"{not_looked_into} datagrams not looked into by tshark: they are IP by version and length alone")
    else:
        missing.append("tshark")
    status = comparisons.report()
    if missing:
        print("not there: " + " ".join(missing))
    return status or (2 if missing else 0)


if __name__ == "__main__":
    sys.exit(main(*sys.argv[1:]))
