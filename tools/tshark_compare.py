#!/usr/bin/python3
"""tshark_compare.py FILE [headers]: hold the reference's listing of a file of
sections against tshark, Wireshark's dissector of DVB MPE. Each section is laid
into 188-byte transport stream packets of one PID, and these into a capture
file (link type 243, MPEG-2 TS), which tshark puts together and dissects. It has
no dissector for MPE-FEC sections, whose fields stand where datagram sections
have theirs: each is shown once more with the table_id of a datagram section and
the CRC_32 of that. With `headers` the datagrams are not looked into (they need
not be UDP). Ends with status 1 on a difference, or where there was no datagram
section to compare. Other comparisons use its functions."""
import json
import struct
import subprocess
import sys
import tempfile

sys.dont_write_bytecode = True
import reference_list as reference
from reference_write import sealed

PID = 0x100


def ts_packets(section, counter):
    """The section in packets of its own: pointer_field 0, stuffing 0xFF after."""
    packets = []
    data = b"\0" + section
    for start in range(0, len(data), 184):
        first = 0x4000 if start == 0 else 0        # payload_unit_start_indicator
        head = struct.pack(">BHB", 0x47, first | PID, 0x10 | (counter + len(packets)) & 15)
        packets.append(head + data[start:start + 184].ljust(184, b"\xff"))
    return packets


def dissected(packets):
    """{packet number from 1: layers} for the packets that end a section."""
    with tempfile.NamedTemporaryFile(suffix=".pcap") as file:
        file.write(struct.pack("<IHHIIII", 0xA1B2C3D4, 2, 4, 0, 0, 65535, 243))
        for number, packet in enumerate(packets):
            file.write(struct.pack("<IIII", 0, number, 188, 188) + packet)
        file.flush()
        found = subprocess.run(
            ["tshark", "-n", "-r", file.name, "-Y", "mpeg_sect || dvb_data_mpe",
             "-o", "mpeg_sect.verify_crc:TRUE", "-o", "ip.check_checksum:TRUE",
             "-o", "udp.check_checksum:TRUE", "-T", "json", "-x", "--no-duplicate-keys"],
            stdout=subprocess.PIPE, stderr=subprocess.DEVNULL, check=True).stdout
    layers = [packet["_source"]["layers"] for packet in json.loads(found)]
    return {int(one["frame"]["frame.number"]): one for one in layers}


def layer(layers, name):
    """A layer's fields; none where tshark does not show it, or shows two in one packet."""
    fields = layers.get(name, {})
    return fields if isinstance(fields, dict) else {}


def raw(fields, name):
    """The bytes of a layer or a field, in hex; none where tshark does not show just one."""
    data = fields.get(name + "_raw", [""])[0]
    return data if isinstance(data, str) else ""


def number(fields, name):
    """A field as a number; -1 where tshark does not show it."""
    return int(fields.get(name, "-1"), 0)


def pairs(section, want, layers):
    """(what, wanted, tshark's) for all that is compared of one section. `want` has
    what must stand in it, by name: table_id, section_length, private_and_reserved
    and crc_status (None: not compared) of any; front (bytes 3 to 7) and the
    real-time parameters of one that is good; version and payload of a datagram
    that is to be looked into."""
    head = layer(layers, "dvb_data_mpe" if want["table_id"] == 0x3E else "mpeg_sect")
    yield "table_id", want["table_id"], number(head, "mpeg_sect.tid")
    yield "section_length", want["section_length"], number(head, "mpeg_sect.len")
    yield "syntax indicator", 1, number(head, "mpeg_sect.syntax_indicator")
    yield "private and reserved bits", want["private_and_reserved"], number(head, "mpeg_sect.reserved")
    if want["crc_status"] is not None:
        yield "CRC_32", int.from_bytes(section[-4:], "big"), number(head, "mpeg_sect.crc")
        yield "CRC status", want["crc_status"], number(head, "mpeg_sect.crc.status")
    if want["table_id"] != 0x3E or "front" not in want:
        return
    byte_3, byte_4, byte_5, byte_6, byte_7 = want["front"]
    yield "reserved bits", byte_5 >> 6, number(head, "dvb_data_mpe.reserved")
    yield "payload scrambling", byte_5 >> 4 & 3, number(head, "dvb_data_mpe.pload_scrambling")
    yield "address scrambling", byte_5 >> 2 & 3, number(head, "dvb_data_mpe.addr_scrambling")
    yield "LLC_SNAP_flag", byte_5 >> 1 & 1, number(head, "dvb_data_mpe.llc_snap_flag")
    yield "current_next_indicator", byte_5 & 1, number(head, "mpeg_sect.cur_next_ind")
    yield "section_number", byte_6, number(head, "dvb_data_mpe.sect_num")
    yield "last_section_number", byte_7, number(head, "dvb_data_mpe.last_sect_num")
    # tshark shows MAC_address_1 to 6; in DVB-H 4, 3, 2, 1 are bytes 8 to 11.
    name = "dvb_data_mpe.dst_mac" + (".scrambled" if byte_5 >> 2 & 3 else "")
    mac = bytes.fromhex(head.get(name, "").replace(":", ""))
    yield "bytes 3 and 4", bytes([byte_3, byte_4]), mac[:3:-1]
    word = int.from_bytes(mac[3::-1], "big")
    yield "address", want["address"], word & 0x3FFFF
    yield "delta_t", want["delta_t"], word >> 20
    yield "table_boundary", want["tb"], word >> 19 & 1
    yield "frame_boundary", want["fb"], word >> 18 & 1
    if "payload" in want:
        yield from datagram_pairs(want["version"], want["payload"], layers)


def datagram_pairs(version, payload, layers):
    """The same for the datagram in a section."""
    ip = layer(layers, "ip" if version == 4 else "ipv6")
    length = number(ip, "ip.len") if version == 4 else 40 + number(ip, "ipv6.plen")
    yield "IP version", version, number(ip, "ip.version")
    yield "datagram length", len(payload), length
    if version == 4:
        yield "IP header checksum status", 1, number(ip, "ip.checksum.status")
    parts = [raw(layers, name) for name in ("ip", "ipv6", "udp")]
    if payload[9 if version == 4 else 6] == 17:
        udp = layer(layers, "udp")
        yield "UDP checksum status", 1, number(udp, "udp.checksum.status")
        parts.append(raw(udp, "udp.payload"))
    else:
        parts.append(raw(layers, "data"))
    yield "datagram bytes", payload, bytes.fromhex("".join(parts))


def showings(kind, section, want):
    """What tshark is shown of a section; a check section a second time, with the
    table_id of a datagram section and the CRC_32 of that, which is not compared:
    tshark may take the column for a broken datagram, and stop before it."""
    yield kind, section, want
    if kind == "check":
        as_datagram = sealed(b"\x3E" + section[1:-4])
        yield "check as datagram", as_datagram, want | {"table_id": 0x3E, "crc_status": None}


def spelled(value):
    """A value to print; of many bytes their number and the first ones."""
    if not isinstance(value, bytes):
        return value
    return value.hex() if len(value) <= 40 else f"{len(value)} bytes {value[:40].hex()}.."


class Comparisons:
    """Counts what was compared, by the kind of section, and says what differs."""

    def __init__(self):
        self.sections, self.compared, self.differences = {}, {}, 0

    def section(self, name, kind, by, facts):
        """facts has (what, wanted, found); `by` says which program found it."""
        self.sections.setdefault(kind, set()).add(name)
        fields = self.compared.setdefault((kind, by), {})
        for what, wanted, found in facts:
            fields[what] = fields.get(what, 0) + 1
            if wanted != found:
                self.differs(f"{name}: {what}: wanted {spelled(wanted)}, by {by} {spelled(found)}")

    def differs(self, words):
        self.differences += 1
        print(words)

    def tshark(self, cases):
        """Show tshark the sections, and compare: cases has (name, kind, section, want)."""
        packets, ends = [], []
        for name, *case in cases:
            for kind, section, want in showings(*case):
                packets += ts_packets(section, len(packets))
                ends.append((len(packets), name, kind, section, want))
        shown = dissected(packets)
        for end, name, kind, section, want in ends:
            self.section(name, kind, "tshark", pairs(section, want, shown.get(end, {})))
        if len(shown) != len(ends):
            self.differs(f"sections laid in: {len(ends)}, seen by tshark: {len(shown)}")

    def report(self):
        """Say what was compared; the status to end with."""
        for (kind, by), fields in self.compared.items():
            print(f"{len(self.sections[kind])} sections '{kind}', by {by}: "
                  + ", ".join(f"{what} {n}" for what, n in fields.items()))
        if not self.sections.get("datagram"):
            self.differs("no datagram section was compared")
        total = sum(n for fields in self.compared.values() for n in fields.values())
        print(f"in all: {len(set().union(*self.sections.values()))} sections, "
              f"{total} comparisons, {self.differences} differences")
        return 1 if self.differences else 0


def listed(section, columns, headers):
    """(kind, what must stand in a section) by its line in the listing, and by its
    own bytes where there is no column for that."""
    kind, size = columns[3], int(columns[2])
    want = {"table_id": section[0], "section_length": size - 3,
            "private_and_reserved": section[1] >> 4 & 7, "crc_status": 1}
    if kind == "refused":
        return f"refused {columns[4]}", want | {"crc_status": int(columns[4] != "9")}
    address, delta_t, tb, fb, *own = map(int, columns[4:])
    want.update(address=address, delta_t=delta_t, tb=tb, fb=fb)
    if kind == "check":
        s, last, p = own
        return kind, want | {"front": bytes([p, *section[4:6], s, last])}
    version, length = own
    want["front"] = section[3:8]
    return kind, want if headers else want | {"version": version, "payload": section[12:12 + length]}


def main(name, headers):
    with open(name, "rb") as file:
        stream = file.read()
    rows = [row.split() for row in reference.listing(stream).splitlines()[1:-1]]
    cases, left_out = [], 0
    for (offset, section), columns in zip(reference.cut(stream), rows):
        if columns[3] == "refused" and columns[4] not in ("9", "10"):
            left_out += 1     # layout broken (below 9), or a broken datagram, at which
            continue          # tshark may stop before it comes to the CRC (11)
        kind, want = listed(section, columns, headers)
        cases.append((f"section {columns[0]}", kind, section, want))
    comparisons = Comparisons()
    comparisons.tshark(cases)
    if left_out:
        print(f"{left_out} pieces not shown to tshark: refused, but neither 9 nor 10")
    return comparisons.report()


if __name__ == "__main__":
    sys.exit(main(sys.argv[1], "headers" in sys.argv[2:]))
