#!/usr/bin/python3
"""Make the stored test files anew, always the same bytes:

  samples/burst.bin          a small burst, two damaged sections at its end
  crates/sectionlist/stdin   ordinary and hostile sections, back to back
  crates/sectionlist/stdout  their listing
  crates/section_vectors/stdin   bytes in hex, a line each, no bytes as `-`
  crates/section_vectors/stdout  the same lines with their CRC_32, and the number
                                 and the place of their refusal (0 0: read)
  crates/sectionwrite/stdin  descriptions of sections, a line each
  crates/sectionwrite/stdout the sections in hex, or their refusals

make_vectors.py [FOLDER] writes below FOLDER; without it, below the
repository's root. The CRC is crcmod's (without it the bitwise function's, and
that is said), the check columns are libfec's (without it burst.bin is left
out, and that is said); where scapy is there, its datagrams must be the same
bytes as those made here."""
import ctypes
import ctypes.util
import itertools
import os
import random
import socket
import struct
import sys
import zlib

sys.dont_write_bytecode = True
import reference_list as reference
import reference_write as writer
from reference_list import M, R, crc32
from reference_write import fec, mpe, sealed

ROOT = os.path.dirname(os.path.dirname(os.path.abspath(__file__)))


def store(name, data):
    path = os.path.join(FOLDER, name)
    os.makedirs(os.path.dirname(path), exist_ok=True)
    with open(path, "wb") as file:
        file.write(data)


# ---- Datagrams ----

def internet_sum(data):
    total = sum(struct.unpack(f">{(len(data) + 1) // 2}H", data + bytes(len(data) % 2)))
    while total > 0xFFFF:
        total = (total & 0xFFFF) + (total >> 16)
    return total ^ 0xFFFF


# Where datagrams come from and go to.
ENDS = {4: ("192.0.2.10", "239.1.2.3"), 6: ("2001:db8::10", "ff15::1:203")}


def addresses(version):
    family = socket.AF_INET if version == 4 else socket.AF_INET6
    return b"".join(socket.inet_pton(family, end) for end in ENDS[version])


def ip(version, protocol, number, data):
    """A whole IPv4 or IPv6 datagram, the header's checksum right."""
    ends = addresses(version)
    if version == 4:
        first = struct.pack(">BBHHHBBH", 0x45, 0, 20 + len(data), number, 0, 16, protocol, 0)
        first = first[:10] + struct.pack(">H", internet_sum(first + ends))
    else:
        first = struct.pack(">IHBB", 6 << 28, len(data), protocol, 16)
    return first + ends + data


def udp(version, port, number, data):
    """The same with UDP in it, its checksum right."""
    length = 8 + len(data)
    head = struct.pack(">HHHH", 49152, port, length, 0)
    pseudo = addresses(version) + struct.pack(">II", length, 17)
    head = head[:6] + struct.pack(">H", internet_sum(pseudo + head + data) or 0xFFFF)
    whole = ip(version, 17, number, head + data)
    if scapy:
        source, target = ENDS[version]
        if version == 4:
            first = scapy.IP(src=source, dst=target, id=number, ttl=16)
        else:
            first = scapy.IPv6(src=source, dst=target, hlim=16)
        assert bytes(first / scapy.UDP(sport=49152, dport=port) / scapy.Raw(data)) == whole
    return whole


def plain4(length, told=None, first=0x45):
    """`length` bytes that tell themselves an IPv4 datagram of `told` bytes."""
    told = length if told is None else told
    return (struct.pack(">BBH", first, 0, told) + rng.randbytes(4100))[:length]


def plain6(length, told=None, first=0x60):
    """The same for IPv6; `told` may pass 65,535, the field takes told - 40."""
    told = length if told is None else told
    return (struct.pack(">BBHH", first, 0, 0, (told - 40) & 0xFFFF)
            + rng.randbytes(4100))[:length]


# ---- RS(255,191) by libfec ----

def check_columns(table):
    """The 64 check columns of a frame's application table (191 x 256 bytes).
    Each codeword is held against the defining sums: for each j from 0 to 63
    the field sum of b_i * g^(j*(254-i)) is 0."""
    fecl = ctypes.CDLL(ctypes.util.find_library("fec"))
    fecl.init_rs_char.restype = ctypes.c_void_p
    code = ctypes.c_void_p(fecl.init_rs_char(8, 0x11D, 0, 1, M, 0))
    power = [1]
    for _ in range(509):
        power.append(power[-1] << 1 ^ (0x11D if power[-1] & 0x80 else 0))
    log = {power[i]: i for i in range(255)}
    columns = [bytearray(R) for _ in range(M)]
    for r in range(R):
        row = table[r::R]
        check = ctypes.create_string_buffer(M)
        fecl.encode_rs_char(code, row, check)
        word = row + check.raw
        for j in range(M):
            total = 0
            for b in word:                   # Horner, from the highest power down
                total = (power[log[total] + j] if total else 0) ^ b
            assert total == 0
        for c in range(M):
            columns[c][r] = check.raw[c]
    return [bytes(c) for c in columns]


def burst():
    """12 datagrams, check columns 0 to 3, then column 4 with a flipped payload
    bit and the beginning of column 5; columns 6 to 63 did not arrive."""
    text = b"One burst of a DVB-H elementary stream, sent as MPE sections. "
    kinds = [4, 4, 4, 6, 4, 4, 4, 4, 6, 4, 4, 4]
    sizes = [172, 172, 560, 300, 172, 1000, 64, 0, 420, 172, 333, 88]
    datagrams = []
    for number, (version, size) in enumerate(zip(kinds, sizes)):
        data = b"%02d " % number + text * 17
        datagrams.append(udp(version, 5000 + 2 * (number % 3), 0x1000 + number, data[:size]))
    used = b"".join(datagrams)
    p = 191 - -(-len(used) // R)             # columns that hold padding only
    columns = check_columns(used + bytes(191 * R - len(used)))
    stream = b""

    def delta_t():                           # 2,500 bytes on the air take 10 ms
        return 500 - len(stream) // 2500

    address = 0
    for d in datagrams:
        last = address + len(d) == len(used)
        stream += mpe(d, address=address, delta_t=delta_t(), tb=int(last))
        address += len(d)
    for s in range(6):
        one = bytearray(fec(columns[s], p=p, s=s, delta_t=delta_t()))
        if s == 4:
            one[77] ^= 0x10
        stream += one[:150] if s == 5 else one
    return bytes(stream)


# ---- Ordinary and hostile sections ----

# The ways to break a rule: (number, place) and the edits of bytes
# (index, bits kept, bits set). The CRC is made right after the edits; 9 leaves it wrong.
MPE_CAUSES = {
    (5, 0): [(0, 0, 0x3D)],
    (7, 1): [(1, 0xDF, 0)],
    (7, 5): [(5, 0xFE, 0)],
    (8, 5): [(5, 0xFF, 0x10)],
    (9, -4): [],
    (10, 6): [(6, 0, 1)],
    (10, 7): [(7, 0, 255)],
    (11, 12): [(12, 0x0F, 0x50)],            # IP version 5
}
FEC_CAUSES = {
    (5, 0): [(0, 0, 0x79)],
    (7, 1): [(1, 0x7F, 0)],
    (7, 5): [(5, 0x7F, 0)],
    (9, -4): [],
    (10, 3): [(3, 0, 191)],
    (10, 6): [(6, 0, 200), (10, 0, 200)],    # s = 200 with its address
    (10, 7): [(7, 0, 64)],
    (10, 8): [(11, 0, 1)],
    (10, 12): [],                            # payload of 255 bytes
}


def broken(causes, base, which):
    """The base section with all the causes in it, and the one that must win."""
    out = bytearray(base)
    for cause in which:
        for index, keep, bits in causes[cause]:
            out[index] = out[index] & keep | bits
    out = bytearray(sealed(out[:-4]))
    if (9, -4) in which:
        out[-1] ^= 1
    number, place = min(which, key=list(causes).index)
    return bytes(out), (number, len(out) - 4 if number == 9 else place)


def base_for(causes, which):
    if causes is MPE_CAUSES:
        return mpe(plain4(60))
    return fec(rng.randbytes(255 if (10, 12) in which else 256))


def short(base):
    """15 bytes: section_length 12, the header kept as far as it goes."""
    return sealed(base[:1] + bytes([base[1] & 0xF0, 12]) + base[3:11])


def ends_with(sec, crc):
    return sec[:-4] + struct.pack(">I", crc)


def leaving(sec, left):
    """The section with such last bytes that the CRC over all of it is `left`:
    the register's 32 steps of the last four bytes, taken back."""
    for _ in range(32):
        left = (left ^ 0x104C11DB7 if left & 1 else left) >> 1
    return ends_with(sec, crc32(sec[:-4]) ^ left)


def flipped(sec, index, bit=0):
    out = bytearray(sec)
    out[index] ^= 1 << bit
    return bytes(out)


def hostile():
    """List of (bytes, outcome); outcome is a kind, a refusal (number, place),
    or None where the pieces are left to the reference."""
    out = []

    def lay(outcome, *sections):
        out.extend((s, outcome) for s in sections)

    good, column = mpe(plain4(60)), rng.randbytes(R)

    # Ordinary datagram sections: sizes, both versions, every field at its ends.
    lay("datagram", *(mpe(plain4(n), address=n) for n in (20, 21, 576, 4079, 4080)))
    lay("datagram", *(mpe(plain6(n), tb=1) for n in (40, 41, 1280, 4080)))
    lay("datagram", *(mpe(plain4(33), byte1=0xF0, tb=a, fb=b) for a in (0, 1) for b in (0, 1)))
    lay("datagram", mpe(plain6(44), byte1=0xF0, mac6=0, mac5=0, delta_t=0),
        mpe(plain4(24, first=0x40), delta_t=4095, address=191 * R - 1),
        mpe(plain4(24, first=0x4F), mac6=255, mac5=255, address=191 * R),
        mpe(plain6(50, first=0x6F), delta_t=1, address=0x3FFFF))

    # MPE-FEC sections: all values of the unread bits (byte 4, bits 5 to 1 of
    # byte 5, bit 6 of byte 1), every p and s, last from s to 63.
    for v in range(256):
        s = v % M
        lay("check", fec(rng.randbytes(R), p=v % 191, s=s, byte4=v,
                         byte5=0xC1 | (v + v // 32) % 32 << 1,
                         last=(63, s, rng.randint(s, 63))[v % 3],
                         byte1=(0xB0, 0xF0)[v // 64 % 2],
                         delta_t=(0, 4095, rng.randrange(4096))[v % 5 % 3],
                         tb=rng.randrange(2), fb=rng.randrange(2)))

    # 4: sizes that a stream can bring.
    lay((4, 0), b"\x3E\xB0\0", b"\x78\xB0\x01\xFF",
        *(sealed(bytes([0x3E, 0xB0, n - 3]) + good[3:n - 4]) for n in (7, 14, 15)))
    lay((4, 0), mpe(plain4(4081)), mpe(plain6(4081)), mpe(plain4(4082)),
        fec(rng.randbytes(4081)), fec(rng.randbytes(4082)))
    lay((11, 12), mpe(b""))
    lay((10, 12), fec(b""), fec(rng.randbytes(4080)))
    lay((9, 12), flipped(mpe(b""), 14))
    lay((9, 4092), flipped(mpe(plain4(4080)), 2000))

    # 5: other table_ids, all else right.
    for table_id in (0x00, 0x3A, 0x3F, 0x77, 0xBE, 0xF8, 0xFF):
        lay((5, 0), sealed(bytes([table_id]) + (good, fec(column))[table_id > 0x70][1:-4]))

    # 7: each bit that must be 1; 8: each bit that must be 0.
    for sec in (good, fec(column)):
        for index, bits in ((1, (7, 5, 4)), (5, (7, 6, 0))):
            lay((7, index), *(sealed(flipped(sec, index, b)[:-4]) for b in bits))
    lay((7, 1), mpe(plain4(20), byte1=0x40), fec(column, byte1=0x40))
    lay((8, 5), *(mpe(plain4(20), byte5=0xC1 | 1 << b) for b in range(1, 6)))

    # 9: one flipped bit in a field, the payload or the CRC; other CRCs.
    lay((9, len(good) - 4), *(flipped(good, i) for i in (3, 8, 11, 12, 71, 75)))
    lay((9, len(good) - 4), ends_with(good, crc32(good[:-4]) ^ 0xFFFFFFFF),
        ends_with(good, zlib.crc32(good[:-4])), good[:-4] + good[:-5:-1],
        ends_with(good, 0), *(leaving(good, one) for one in (1, 1 << 15, 1 << 16, 1 << 31)))

    # 10: datagram sections, then MPE-FEC sections.
    for index in (6, 7):
        lay((10, index), sealed(flipped(good, index, 7)[:-4]))
    lay((10, 3), fec(column, p=191), fec(column, p=255))
    lay((10, 6), fec(column, s=64, last=63), fec(column, s=1, last=0))
    lay((10, 7), fec(column, s=0, last=64), fec(column, s=64, last=64),
        fec(column, s=255, last=255))
    lay((10, 8), *(fec(column, s=5, address=a) for a in
                   (0, 5, 5 * R - 1, 5 * R + 1, 5 * R + 0x10000, 5 * R + 0x20000)))
    lay((10, 12), *(fec(rng.randbytes(n)) for n in (1, 255, 257, 512)))

    # 11: not one whole datagram.
    lay((11, 12), *(mpe(plain4(n)) for n in (1, 3, 4, 19)))
    lay((11, 12), *(mpe(plain4(n, told=t)) for n, t in
                    ((20, 19), (20, 21), (21, 20), (20, 0), (20, 0xFFFF),
                     (60, 60 + 256), (60, 60 + 0x1000), (60, 60 + 0x8000),
                     (4080, 4079), (4080, 4081))))
    lay((11, 12), *(mpe(plain6(n, told=t)) for n, t in
                    ((20, 40), (40, 41), (41, 40), (39, 39 + 0x10000),
                     (24, 24 + 0x10000), (60, 60 + 0x1000), (60, 60 + 0x8000),
                     (4080, 4081))))
    lay((11, 12), *(mpe(plain4(40, first=v << 4 | 5)) for v in (0, 1, 5, 7, 12, 14)),
        *(mpe(plain6(40, first=v << 4)) for v in (0, 5, 7, 14)))
    lay((11, 12), mpe(b"\x60\0\0\x3c\0\x15" + bytes(54)),   # IPv4's length right, IPv6's not
        mpe(b"\x45\0\0\x3b\0\x14" + bytes(54)))             # and the other way round

    # Every two causes in one section: the first must win. Then all at once.
    for causes in (MPE_CAUSES, FEC_CAUSES):
        for which in [*itertools.combinations(causes, 2), tuple(causes)]:
            sec, outcome = broken(causes, base_for(causes, which), which)
            lay(outcome, sec)
        # 4 with each other cause, below 16 bytes and above 4,096.
        for cause in causes:
            base = base_for(causes, ())
            if cause[0] != 11 and cause != (10, 8):
                lay((4, 0), broken(causes, short(base), (cause,))[0])
            if cause[0] in (8, 9, 11) or cause in ((5, 0), (10, 3), (10, 8)):
                long = (mpe(plain4(4081)), fec(rng.randbytes(4082)))[causes is FEC_CAUSES]
                lay((4, 0), broken(causes, long, (cause,))[0])

    # Garbage that leads the cutting into the middle of the sections after it;
    # it goes on until a cut falls on its end.
    for size in (5, 40, 333):
        block = rng.randbytes(1) + struct.pack(">H", 0xB000 | size + 20)
        block += rng.randbytes(size) + mpe(plain4(100)) + fec(column) + mpe(plain4(300))
        end = 0
        while end < len(block):
            block += rng.randbytes(max(0, end + 3 - len(block)))
            end += 3 + (block[end + 1] & 15) * 256 + block[end + 2]
        out.append((block + rng.randbytes(end - len(block)), None))
        lay("datagram", mpe(plain4(50)))
    lay((4, 0), good[:2])                    # the rest at the stream's end
    return out


def rests():
    """Inputs of one piece that is shorter than it tells: only these are refused under 6."""
    out = [(good[:n], (4, 0) if n < 16 else (6, 1)) for good in
           (mpe(plain4(60)), fec(rng.randbytes(R))) for n in (1, 2, 3, 15, 16, len(good) - 1)]

    def more(sec, by=1):
        """Tells `by` bytes more than there are, the CRC over it right."""
        told = (sec[1] & 15) * 256 + sec[2] + by
        return sealed(sec[:1] + bytes([sec[1] & 0xF0 | told >> 8, told & 255]) + sec[3:-4])

    out += [(more(mpe(plain4(n))), (6, 1)) for n in (20, 60, 4080)]
    out += [(more(fec(rng.randbytes(n)), by), (6, 1)) for n, by in ((0, 1), (256, 1), (256, 256))]
    out += [(more(mpe(plain4(4081))), (4, 0)), (more(short(mpe(plain4(60)))), (4, 0))]
    for causes in (MPE_CAUSES, FEC_CAUSES):
        for cause in causes:
            sec = broken(causes, more(base_for(causes, (cause,))), (cause,))[0]
            out.append((sec, cause if cause[0] == 5 else (6, 1)))
    return out


def listed(stream):
    """{offset: kind, or (number, place)} from the reference's listing."""
    found = {}
    for row in reference.listing(stream).splitlines()[1:-1]:
        w = row.split()
        found[int(w[1])] = (int(w[4]), int(w[6])) if w[3] == "refused" else w[3]
    return found


# ---- Descriptions of sections to write ----

TIMINGS = [dict(delta_t=delta_t, tb=tb, fb=fb)
           for delta_t in (0, 1, 500, 4095) for tb in (0, 1) for fb in (0, 1)]
MACS = [dict(mac6=a, mac5=b) for a in (0, 255, 0x0E, 0x17) for b in (0, 255, 0x0E, 0x17)]
MOST = 2 ** 18 - 1                           # the highest address
# The fields that may have any value of so many bits.
WIDTHS = {"datagram": dict(mac6=8, mac5=8, delta_t=12, tb=1, fb=1, address=18),
          "check": dict(delta_t=12, tb=1, fb=1)}

# The ways to break a rule of writing: the refusal, and the numbers or the payload that earn it.
WRITE_CAUSES = {
    "datagram": {(10, "section", 8): dict(address=MOST + 1),
                 (11, "section", 12): dict(version=6),
                 (15, "call", 0): dict(delta_t=4096)},
    "check": {(10, "section", 3): dict(p=191),
              (10, "section", 6): dict(last=4),
              (10, "section", 7): dict(columns=0),
              (10, "section", 8): dict(address=5 * 16 + 1),
              (10, "section", 12): dict(payload=bytes(15)),
              (15, "call", 0): dict(delta_t=65535)},
}


def sized(version, size):
    """A datagram of a size, with UDP in it where there is room."""
    room = size - (20 if version == 4 else 40)
    if room < 8:
        return ip(version, 253, size, rng.randbytes(room))
    return udp(version, 40000 + size, size, rng.randbytes(room - 8))


def descriptions():
    """List of (kind, numbers by name, payload, refusal or None)."""
    out = []

    def datagram(payload, outcome=None, **field):
        n = len(out)
        field = dict(version=payload[0] >> 4 if payload else 4, address=n,
                     **MACS[n % 16], **TIMINGS[n * 7 % 16]) | field
        out.append(("datagram", field, payload, outcome))

    def check(rows, s, last=63, outcome=None, payload=None, **field):
        n = len(out)
        field = dict(p=n % 191, s=s, last=last, rows=rows, columns=64, address=s * rows,
                     **TIMINGS[n * 7 % 16]) | field
        out.append(("check", field, rng.randbytes(rows) if payload is None else payload, outcome))

    # Datagrams of many sizes; delta_t, flags and address in all combinations.
    for version in (4, 6):
        for size in (20, 21, 28, 40, 41, 48, 576, 1500, 4079, 4080):
            if size >= (20 if version == 4 else 40):
                datagram(sized(version, size))
    for n, address in enumerate((0, 1, 1040, 191 * R - 1, MOST)):
        for m, timing in enumerate(TIMINGS):
            datagram(sized((4, 6)[m % 2], 48 + n), address=address, **MACS[m * 5 % 16], **timing)
    datagram(plain4(20, first=0x40))         # the header's length is not read
    datagram(plain6(40, first=0x6F))

    # Columns of every frame and the longest; each s and each last, with p over all its values.
    for rows in (1, 16, 256, 512, 768, 1024, 4080):
        check(rows, 0, p=190)
        check(rows, 63, p=0)
    for v in range(M):
        check(v % 16 + 1, v)
        check(v % 16 + 1, 0, v)
        check(v % 16 + 1, v, v, columns=v + 1)
    check(16, 255, 255, columns=256)
    check(1, 0, 0, columns=2 ** 64 - 1)
    check(1197, 219, 219, columns=220)       # its address is the highest
    check(0, 0)                              # a column of no bytes

    # 10 and 11 in datagram sections.
    good = sized(4, 28)
    for address in (MOST + 1, MOST + 2, 2 ** 31, 2 ** 32 - 1):
        datagram(good, (10, "section", 8), address=address)
    for payload in (b"", b"\x45", plain4(19), plain4(4081), plain6(4081), plain6(39, told=39 + 2 ** 16),
                    plain4(20, told=19), plain4(20, told=21), plain4(21, told=20), plain4(60, told=60 + 256),
                    plain6(40, told=41), plain6(41, told=40), plain4(40, first=0x55), plain4(40, first=0x05),
                    plain6(40, first=0x70), b"\x60\0\0\x3c\0\x15" + bytes(54)):
        for version in (4, 6):
            datagram(payload, (11, "section", 12), version=version)
    datagram(good, (11, "section", 12), version=6)
    datagram(sized(6, 48), (11, "section", 12), version=4)
    either = ip(4, 253, 60 - 40, rng.randbytes(60 - 20))    # 60 bytes by the fields of either version
    datagram(either)
    datagram(either, (11, "section", 12), version=6)

    # 10 in MPE-FEC sections.
    check(16, 5, p=191, outcome=(10, "section", 3))
    check(16, 5, p=255, outcome=(10, "section", 3))
    for s, last in ((1, 0), (63, 62), (64, 63), (255, 0), (255, 254)):
        check(16, s, last, columns=256, outcome=(10, "section", 6))
    for last, columns in ((63, 63), (63, 0), (64, 64), (255, 255), (0, 0)):
        check(16, 0, last, columns=columns, outcome=(10, "section", 7))
    for address in (0, 5, 79, 81, 80 + 2 ** 16, 80 + 2 ** 18, 2 ** 32 - 1):
        check(16, 5, address=address, outcome=(10, "section", 8))
    check(2048, 128, 128, columns=129, payload=b"", outcome=(10, "section", 8))     # 2^18
    for rows in (2 ** 32, 2 ** 61, 2 ** 63 + 16, 2 ** 64 - 1):  # 8 rows wrap at 32 or 64 bits
        check(rows, 8, address=8 * rows % 2 ** 32, payload=bytes(16), outcome=(10, "section", 8))
    for rows, size in ((16, 15), (16, 17), (16, 0), (0, 16), (256, 16), (2 ** 64 - 1, 0)):
        check(rows, 0, payload=rng.randbytes(size), outcome=(10, "section", 12))
    check(4081, 0, outcome=(10, "section", 12))
    check(4081, 1, outcome=(10, "section", 12))

    # 15, and every two causes in one section: the first must win. Then all at once.
    for delta_t in (4096, 4097, 32768, 65535):
        datagram(good, (15, "call", 0), delta_t=delta_t)
        check(16, 5, delta_t=delta_t, outcome=(15, "call", 0))
    for kind, causes in WRITE_CAUSES.items():
        for which in [*itertools.combinations(causes, 2), tuple(causes)]:
            wrong = {name: value for cause in which for name, value in causes[cause].items()}
            if kind == "datagram":
                datagram(good, which[0], **wrong)
            else:
                check(16, 5, outcome=which[0], **dict(p=7) | wrong)

    # Each bit of each field as the only 1, and as the only 0.
    for kind, widths in WIDTHS.items():
        for name, width in widths.items():
            for bit, ones in itertools.product(range(width), (0, -1)):
                field = {each: ones % 2 ** widths[each] for each in widths}
                field[name] ^= 1 << bit
                if kind == "datagram":
                    datagram(good, **field)
                else:
                    check(16, 5, **field)
    return out


# ---- The files ----

FOLDER = sys.argv[1] if len(sys.argv) > 1 else ROOT
try:
    import logging
    logging.getLogger("scapy").setLevel(logging.ERROR)
    import scapy.all as scapy
except ImportError:
    scapy = None
    print("scapy is not there: datagrams are not held against it", file=sys.stderr)
if reference.CRC_BY != "crcmod":
    print("crcmod is not there: the CRC is the bitwise function's", file=sys.stderr)
assert crc32(b"123456789") == 0x0376E6E7     # the published check value of this CRC

rng = random.Random(301192)
cases = hostile()
stream, want = b"", {}
for data, outcome in cases:
    want[len(stream)] = outcome
    stream += data
got = listed(stream)
for offset, outcome in want.items():         # what each section was made to be
    assert offset in got and outcome in (None, got[offset]), (offset, outcome, got.get(offset))
assert len(stream) < 300000
store("crates/sectionlist/stdin", stream)
store("crates/sectionlist/stdout", reference.listing(stream).encode())

# Inputs of one piece cut short, texts of many lengths, and the sizes at both ends of what a section may have.
rng = random.Random(13818)
vectors = rests()
for data, outcome in vectors:
    assert listed(data) == {0: outcome}, (data.hex(), outcome)
rng = random.Random(32)
vectors += [(b"123456789", (4, 0)), (mpe(plain4(60))[:15], (4, 0)), (mpe(plain4(4081)), (4, 0)),
            (mpe(plain4(4080)), None), (mpe(plain6(4080)), None), (fec(rng.randbytes(R)), None)]
texts = [rng.randbytes(n) for n in [*range(41), 64, 100, 183, 188, 255, 256, 257, 1024, 4080, 4092, 4096]]
texts += [bytes(4), bytes(64), b"\xff" * 4, b"\xff" * 64, sealed(rng.randbytes(32))]
vectors += [(text, reference.refusal(text)) for text in texts]
read, told = "", ""
for data, outcome in vectors:
    assert reference.refusal(data) == outcome, (data.hex(), outcome)
    text = data.hex().upper() or "-"
    read += text + "\n"
    told += "%s %08X %d %d\n" % (text, crc32(data), *(outcome or (0, 0)))
store("crates/section_vectors/stdin", read.encode())
store("crates/section_vectors/stdout", told.encode())

rng = random.Random(47)
read = ""
for kind, field, payload, outcome in descriptions():
    assert writer.refusal(kind, field, payload) == outcome, (kind, field, outcome)
    read += writer.line(kind, field, payload) + "\n"
read = read[:-1] + "\r\n"                  # a carriage return makes no difference
told = writer.answers(read)
assert len(read) + len(told) < 400000
store("crates/sectionwrite/stdin", read.encode())
store("crates/sectionwrite/stdout", told.encode())

if ctypes.util.find_library("fec"):
    store("samples/burst.bin", burst())
else:
    print("libfec is not there: samples/burst.bin is not made", file=sys.stderr)
