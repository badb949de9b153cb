#!/usr/bin/python3
"""List the MPE and MPE-FEC sections of a DVB-H burst, laid back to back on
standard input. Written from the formats alone, plain and slow, to be held
against another program. The burst has frames of 256 rows, RS(255,191)."""
import sys

R = 256       # rows of a frame
M = 64        # check columns of RS(255,191)
MOST = 20000  # so many pieces are read and no more

HEADING = ("#    no   offset     n kind     address delta_t tb fb (datagram: "
           "version length; check: s last p; refused: number layer place)")


def crc32_bitwise(data):
    """CRC_32 of sections: register at first all ones, highest bit first,
    polynomial 0x04C11DB7, no final inversion."""
    register = 0xFFFFFFFF
    for byte in data:
        for bit in range(7, -1, -1):
            top = (register >> 31) ^ (byte >> bit & 1)
            register = register << 1 & 0xFFFFFFFF
            if top:
                register ^= 0x04C11DB7
    return register


try:
    import crcmod
    crc32 = crcmod.mkCrcFun(0x104C11DB7, initCrc=0xFFFFFFFF, rev=False, xorOut=0)
    CRC_BY = "crcmod"
except ImportError:
    crc32 = crc32_bitwise
    CRC_BY = "the bitwise function"


def cut(stream):
    """(offset, piece) for each piece. A piece has 3 bytes more than the lower
    four bits of its byte 1 with its byte 2 tell; what is too short for that
    is one last piece."""
    pieces = []
    offset = 0
    while offset < len(stream) and len(pieces) < MOST:
        end = len(stream)
        if end - offset >= 3:
            told = (stream[offset + 1] & 0x0F) * 256 + stream[offset + 2]
            end = min(end, offset + 3 + told)
        pieces.append((offset, stream[offset:end]))
        offset = end
    return pieces


def datagram(payload):
    """(version, length) if the payload is one whole datagram, else None."""
    if not 20 <= len(payload) <= 4080:
        return None
    version = payload[0] >> 4
    if version == 4:
        length = payload[2] * 256 + payload[3]
    elif version == 6:
        length = 40 + payload[4] * 256 + payload[5]
    else:
        return None
    return (version, length) if length == len(payload) else None


def timing(section):
    """(delta_t, table_boundary, frame_boundary, address) of bytes 8 to 11."""
    number = int.from_bytes(section[8:12], "big")
    return number >> 20, number >> 19 & 1, number >> 18 & 1, number & 0x3FFFF


def refusal(section, rows=R, columns=M):
    """(number, place) of the first rule that the section breaks, else None; for frames of
    so many rows and check columns."""
    n = len(section)
    if n < 16 or n > 4096:
        return 4, 0                      # size
    table_id = section[0]
    if table_id not in (0x3E, 0x78):
        return 5, 0                      # neither datagram nor MPE-FEC section
    if (section[1] & 0x0F) * 256 + section[2] != n - 3:
        return 6, 1                      # section_length
    if section[1] & 0xB0 != 0xB0:
        return 7, 1                      # bits 7, 5, 4 of byte 1
    if section[5] & 0xC1 != 0xC1:
        return 7, 5                      # bits 7, 6, 0 of byte 5
    if table_id == 0x3E and section[5] & 0x3E:
        return 8, 5                      # scrambled, or LLC_SNAP_flag
    if crc32(section) != 0:
        return 9, n - 4                  # CRC_32
    payload = section[12:n - 4]
    if table_id == 0x3E:
        if section[6] != 0:
            return 10, 6                 # section_number
        if section[7] != 0:
            return 10, 7                 # last_section_number
        if datagram(payload) is None:
            return 11, 12
    else:
        p, s, last = section[3], section[6], section[7]
        if p > 190:
            return 10, 3                 # padding columns
        if s > last:
            return 10, 6                 # number of the check column
        if last >= columns:
            return 10, 7                 # last number
        if timing(section)[3] != s * rows:
            return 10, 8                 # address in the RS table
        if len(payload) != rows:
            return 10, 12                # one column
    return None


def line(section):
    """(kind, the rest of the line) for one piece."""
    no = refusal(section)
    if no:
        number, place = no
        return "refused", f"{number:3d} {'section':<7s}{place:9d}"
    delta_t, table_boundary, frame_boundary, address = timing(section)
    start = f"{address:8d}{delta_t:8d}{table_boundary:3d}{frame_boundary:3d}"
    if section[0] == 0x3E:
        version, length = datagram(section[12:-4])
        return "datagram", f"{start}{version:3d}{length:6d}"
    return "check", f"{start}{section[6]:4d}{section[7]:4d}{section[3]:4d}"


def listing(stream):
    """The whole listing of a stream, as text."""
    lines = [HEADING]
    count = {"datagram": 0, "check": 0, "refused": 0}
    for number, (offset, piece) in enumerate(cut(stream)):
        kind, rest = line(piece)
        count[kind] += 1
        lines.append(f"{number:7d}{offset:9d}{len(piece):6d} {kind:<8s}{rest}")
    lines.append(f"sections {sum(count.values())} datagram {count['datagram']}"
                 f" check {count['check']} refused {count['refused']}")
    return "\n".join(lines) + "\n"


if __name__ == "__main__":
    sys.stdout.write(listing(sys.stdin.buffer.read()))
