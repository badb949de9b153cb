#!/usr/bin/python3
"""Write the MPE or MPE-FEC section that each line of standard input describes:
a line with its bytes in hex, or `refused NUMBER LAYER PLACE`. Written from the
formats alone, plain and slow, to be held against another program. A line is

  datagram MAC6 MAC5 VERSION DELTA_T TB FB ADDRESS PAYLOAD
  check P S LAST ROWS COLUMNS DELTA_T TB FB ADDRESS PAYLOAD

in decimals, the payload in hex, `-` for none."""
import struct
import sys

sys.dont_write_bytecode = True
import reference_list as reference
from reference_list import R

TIMING = ["delta_t", "tb", "fb", "address"]
FIELDS = {"datagram": ["mac6", "mac5", "version"] + TIMING,
          "check": ["p", "s", "last", "rows", "columns"] + TIMING}


def sealed(body):
    """The body with its CRC_32 after it."""
    return bytes(body) + struct.pack(">I", reference.crc32(bytes(body)))


def section(table_id, b3, b4, b5, b6, b7, payload,
            address=0, delta_t=500, tb=0, fb=0, byte1=0xB0):
    length = 13 + len(payload)               # section_length: all but 3 bytes
    return sealed(struct.pack(">BBBBBBBBI", table_id, byte1 | length >> 8,
                              length & 255, b3, b4, b5, b6, b7,
                              delta_t << 20 | tb << 19 | fb << 18 | address)
                  + payload)


def mpe(payload, mac6=3, mac5=2, byte5=0xC1, **more):
    return section(0x3E, mac6, mac5, byte5, 0, 0, payload, **more)


def fec(payload, p=100, s=3, last=63, byte4=0xFF, byte5=0xFF, **more):
    more.setdefault("address", s * R)
    return section(0x78, p, byte4, byte5, s, last, payload, **more)


def line(kind, field, payload):
    """The line that describes a section; field has its numbers by name."""
    numbers = [str(field[name]) for name in FIELDS[kind]]
    return " ".join([kind, *numbers, payload.hex().upper() or "-"])


def described(text):
    """(kind, numbers by name, payload) of a line."""
    kind, *numbers, payload = text.split(" ")
    assert len(numbers) == len(FIELDS[kind]), text
    return (kind, dict(zip(FIELDS[kind], map(int, numbers))),
            bytes.fromhex("" if payload == "-" else payload))


def refusal(kind, field, payload):
    """(number, layer, place) of the first rule that is broken, else None."""
    address = field["address"]
    if kind == "datagram":
        if address >= 1 << 18:
            return 10, "section", 8      # address of more than 18 bits
        whole = reference.datagram(payload)
        if whole is None or whole[0] != field["version"]:
            return 11, "section", 12     # not one whole datagram of that version
    else:
        if field["p"] > 190:
            return 10, "section", 3      # padding columns
        if field["s"] > field["last"]:
            return 10, "section", 6      # number of the check column
        if field["last"] >= field["columns"]:
            return 10, "section", 7      # last number
        if address != field["s"] * field["rows"] or address >= 1 << 18:
            return 10, "section", 8      # address in the RS table
        if len(payload) != field["rows"] or len(payload) > 4080:
            return 10, "section", 12     # one column
    if field["delta_t"] > 4095:
        return 15, "call", 0             # delta_t of more than 12 bits
    return None


def written(kind, field, payload):
    """The bytes of a section that is not refused."""
    timing = {name: field[name] for name in TIMING}
    if kind == "datagram":
        return mpe(payload, field["mac6"], field["mac5"], **timing)
    return fec(payload, field["p"], field["s"], field["last"], **timing)


def answer(text):
    """The line to print for a line that was read."""
    description = described(text)
    no = refusal(*description)
    if no:
        return "refused %d %s %d" % no
    return written(*description).hex().upper()


def answers(text):
    """The whole output for a whole input."""
    return "".join(answer(row) + "\n" for row in text.splitlines())


if __name__ == "__main__":
    sys.stdout.write(answers(sys.stdin.read()))
