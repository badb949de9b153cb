#!/usr/bin/python3
"""Make the stored files of the program that has bursts take sections, closes them and
reads them out, always the same bytes; what is to come of each call is the second
receiver's, and what a case was made to be:

  crates/bursttake/stdin     buffers, starts, sections, closes and read-outs, a line each
  crates/bursttake/stdout    the answers, and checksums of the buffers

make_take_vectors.py [FOLDER] writes below FOLDER; without it, below the repository's
root. Needs no package."""
import itertools
import os
import random
import sys

sys.dont_write_bytecode = True
import reference_take as reference
from reference_take import COLUMNS, ROWS
from reference_write import fec, mpe, sealed
from take_compare import Frame, datagram, random_burst, take_line

ROOT = os.path.dirname(os.path.dirname(os.path.abspath(__file__)))
R, TABLE = ROWS[0], COLUMNS * ROWS[0]
STARTED, TAKEN, OPENED = "started", "taken", "opened"


def store(name, text):
    path = os.path.join(FOLDER, name)
    os.makedirs(os.path.dirname(path), exist_ok=True)
    with open(path, "w", newline="") as file:
        file.write(text)


# ---- The lines, and what the answers of a line were made to be: none where one is left to the second receiver ----

def ask(line, *said):
    """A line that asks for calls; what their answers were made to be."""
    lines.append(line)
    due[len(lines)] = said


def note(words):
    lines.append("# " + words)


def buffers(cells, marks=None):
    lines.append(f"buffers {cells} {cells if marks is None else marks}")


def put(mark, first, count=1):
    lines.append(f"put {mark} {first} {count}")


def start(code, size_code, said=STARTED):
    ask(f"start {code} {size_code}", said)


def take(section, said=TAKEN, arrival=None):
    """`said`: TAKEN, or the (number, place) of a refusal."""
    ask(take_line(rng, section) if arrival is None else f"take {arrival} {section.hex().upper()}", said)


def close(said, rows=R, scratch=255, names=None):
    """`said`: the tallies, with or without the wake order behind them, or as of take."""
    said = " ".join(map(str, ("closed", *said))) if said and len(said) > 2 else said
    ask(f"close {scratch} {rows if names is None else names}", said)


def read_out(*datagrams, ends=2, some=None):
    """A read-out: `datagrams`, their (address, datagram), `some` of which are asked for, or
    all and then the end so many times."""
    asked = [reference.told(each) for each in (*datagrams, *[None] * ends)][:some]
    ask(f"open {len(asked)}", OPENED, *asked)


def no_read_out():
    ask(f"open {rng.randrange(4)}", (2, 0))


def begin(frame):
    lines.append(frame.buffers())
    start(frame.code, frame.size_code)


def take_all(frame, sections):
    for section in sections:
        take(section)


def sections_of(frame, numbers):
    """Every datagram section, and the check columns with these numbers."""
    return ([frame.datagram_section(k) for k in range(len(frame.datagrams))]
            + [frame.check_section(s) for s in numbers])


# ---- Bursts of one lawful frame: nothing is refused under 4 to 13 ----

def lawful():
    note("a frame in order, and once more, shuffled; last and the flags differ from section to section")
    frame = Frame(rng, "rs", 0, [20, 40, 41, 300, 21, 77, 520, 60, 256, 100, 90, 64])
    begin(frame)
    take_all(frame, sections_of(frame, (0, 1, 2, 5, 63)))
    again = sections_of(frame, (0, 1, 63))
    rng.shuffle(again)
    take_all(frame, again)

    note("frames shuffled, with sections lost and repeated, of both row codes and of each size")
    for code, size_code, sizes, numbers in (
            ("rs", 0, [60] * 9 + [200, 37], (0, 7, 31, 62)), ("rs", 0, [128] * 12, (1, 2)),
            ("bare", 0, [44, 20, 350, 48, 128, 29, 500, 33, 61], ()), ("rs", 1, [300, 60, 45, 600, 20, 99], (0, 1, 63)),
            ("bare", 1, [90, 45, 333, 44], ()), ("rs", 2, [700, 80, 30], (0, 63)), ("rs", 3, [1000, 24, 20], (63,)),
            ("bare", 3, [60, 20], ())):
        frame = Frame(rng, code, size_code, sizes)
        sections = sections_of(frame, numbers)
        rng.shuffle(sections)
        sections = sections[len(sections) // 5:]
        begin(frame)
        take_all(frame, sections)
        take_all(frame, rng.sample(sections, len(sections) // 2))

    note("the last datagram ends at the end of a column, one byte before it, and one behind")
    for end in (20, 255, 256, 257, 512, 513):
        frame = Frame(rng, "rs", 0, [end] if end < 100 else [end - 40, 40])
        for which in ((-1,), (0,), (-1, 0), (0, -1)):
            begin(frame)
            for each in which:
                take(frame.datagram_section(-1) if each else frame.check_section(3))

    note("frames that fill the table, or all of it but some bytes")
    for end in (TABLE, TABLE - 1, TABLE - 255, TABLE - 256):
        most = [4080] * 11
        frame = Frame(rng, "rs", 0, [*most, end - sum(most) - 60, 60])
        begin(frame)
        for section in (frame.check_section(63), frame.datagram_section(-1), frame.check_section(0), frame.datagram_section(-1)):
            take(section)


# ---- Starts, and buffers ----

def starts():
    size, bare = (COLUMNS + 64) * R, COLUMNS * R
    note("2 before any buffers were lent, and 1 before 2")
    start("rs", 0, (2, 0))
    for size_code in (4, 5, 128, 255):
        start("rs", size_code, (1, 0))
    note("buffers of other lengths, and of other frames")
    for cells, marks in ((size - 1, size), (size, size + 1), (size, 0), (bare, size), (size, bare), (2 * size, 2 * size)):
        buffers(cells, marks)
        start("rs", 0, (2, 0))
    buffers(bare)
    start("rs", 0, (2, 0))
    start("bare", 4, (1, 0))
    start("bare", 1, (2, 0))
    start("bare", 0)
    buffers(size)
    start("bare", 0, (2, 0))
    start("rs", 1, (2, 0))
    start("rs", 0)

    note("a start that is refused leaves the burst before it; one that is not forgets it, and the cells stay")
    frame = Frame(rng, "rs", 0, [50, 60])
    take(frame.datagram_section(0))
    start("rs", 4, (1, 0))
    start("bare", 0, (2, 0))
    take(frame.datagram_section(1))
    take(mpe(datagram(rng, 50), address=frame.end), (12, frame.end))
    start("rs", 0)
    take(mpe(datagram(rng, 50), address=frame.end))
    take(mpe(datagram(rng, 60), address=20))
    start("rs", 0)

    note("2 before 4 and all others; other buffers of the right lengths are as good")
    good = frame.check_section(0)
    for cells, marks in ((size - 1, size), (size, size - 1), (0, 0), (bare, bare)):
        buffers(cells, marks)
        take(b"\x3E\xB0\0", (2, 0))
        take(good, (2, 0))
    buffers(size)
    take(good)
    take(b"", (4, 0))
    buffers(size)
    take(frame.check_section(0))
    take(frame.datagram_section(1))
    buffers(size)
    take(frame.datagram_section(0))
    take(mpe(datagram(rng, 40), address=frame.end), (12, frame.end))


# ---- Sections that are refused by themselves, in a burst that has taken some ----

def changed(section, *edits, seal=True):
    """Bytes (index, bits kept, bits set) are others; CRC_32 is right for them."""
    section = bytearray(section)
    for index, keep, bits in edits:
        section[index] = section[index] & keep | bits
    return sealed(section[:-4]) if seal else bytes(section)


def refused_alone():
    note("4 to 11, each at its places, also with a later cause: nothing changes")
    frame = Frame(rng, "rs", 0, [100, 60, 45, 60])
    begin(frame)
    for k in (0, 1, 3):
        take(frame.datagram_section(k))
    take(frame.check_section(5))
    address, data = frame.datagrams[2]
    good, column = mpe(data, address=address), frame.check_section(6, last=63)
    elsewhere = mpe(data, address=TABLE)     # 12 fits too
    for size in (0, 1, 3, 15):
        take(good[:size], (4, 0))
    take(mpe(datagram(rng, 4081), address=0), (4, 0))
    take(changed(good[:15] + bytes(4), (2, 0, 16))[:15], (4, 0))
    for base in (good, column, elsewhere):
        n = len(base)
        take(changed(base, (0, 0, 0x40)), (5, 0))
        take(changed(base, (0, 0, 0x3F), (2, 0, 0)), (5, 0))
        take(base[:-1], (6, 1))
        take(changed(base + b"\0"), (6, 1))
        for index, keep in ((1, 0x7F), (1, 0xDF), (1, 0xEF), (5, 0x7F), (5, 0xBF), (5, 0xFE)):
            take(changed(base, (index, keep, 0)), (7, index))
        take(changed(base, (n - 1, 0xFE, ~base[-1] & 1), seal=False), (9, n - 4))
        take(changed(base, (12, 0x7F, ~base[12] & 0x80), seal=False), (9, n - 4))
    for bit in range(1, 6):
        take(changed(good, (5, 0xFF, 1 << bit)), (8, 5))
    take(changed(elsewhere, (5, 0xFF, 2), (6, 0, 1)), (8, 5))
    for base in (good, elsewhere):
        take(changed(base, (6, 0, 1)), (10, 6))
        take(changed(base, (7, 0, 128)), (10, 7))
        take(changed(base, (12, 0x0F, 0x50)), (11, 12))
        take(changed(base, (14, 0, 1)), (11, 12))
    take(mpe(data + b"\0", address=address), (11, 12))
    take(mpe(data[:-1], address=address), (11, 12))
    take(mpe(b"", address=address), (11, 12))
    take(mpe(datagram(rng, 19), address=address), (11, 12))
    for edits, place in (([(3, 0, 191)], 3), ([(3, 0, 255), (7, 0, 64)], 3), ([(7, 0, 5)], 6), ([(7, 0, 64)], 7),
                         ([(11, 0, 1)], 8), ([(10, 0, 7)], 8), ([(9, 0xFC, 1)], 8)):
        take(changed(column, *edits), (10, place))
    for size in (0, 255, 257):
        take(fec(rng.randbytes(size), p=frame.p, s=6), (10, 12))
    take(column)
    take(good)
    take(changed(good, (1, 0xFF, 0x40)))
    take(changed(column, (1, 0xFF, 0x40), (4, 0, 0), (5, 0xC1, 0)))

    note("with no check columns an MPE-FEC section is always refused under 10")
    frame = Frame(rng, "bare", 0, [30])
    begin(frame)
    for p, s, last, place in ((190, 0, 63, 7), (190, 0, 0, 7), (191, 0, 0, 3), (190, 1, 0, 6)):
        take(fec(rng.randbytes(R), p=p, s=s, last=last), (10, place))
    take(frame.datagram_section(0))

    note("what is lawful in a frame of other rows is not in this one")
    other = Frame(rng, "rs", 1, [40, 30])
    begin(other)
    take(fec(rng.randbytes(R), p=190, s=0), (10, 12))
    take(fec(rng.randbytes(2 * R), p=190, s=1), (10, 8))
    take(other.check_section(1))
    take(mpe(datagram(rng, 60), address=2 * TABLE - 60), (12, 2 * TABLE - 60))
    take(other.datagram_section(1))


# ---- 12 ----

def beyond_limit():
    note("12, while nothing is told: the limit is the table's end")
    begin(Frame(rng, "rs", 0, [20]))
    for address, size in ((TABLE - 19, 20), (TABLE - 1, 20), (TABLE, 20), (TABLE + 1, 40), (2 ** 18 - 1, 40), (TABLE - 99, 100)):
        take(mpe(datagram(rng, size), address=address, tb=address % 2), (12, max(address, TABLE)))
    take(mpe(datagram(rng, 60), address=TABLE - 60))
    take(mpe(datagram(rng, 20), address=TABLE - 80))

    note("with E told")
    frame = Frame(rng, "rs", 0, [40, 60, 50])
    end = frame.end
    begin(frame)
    take(frame.datagram_section(2))
    for address, size in ((end - 39, 40), (end - 1, 20), (end, 20), (end + 1, 20), (TABLE - 20, 20), (0, end + 1)):
        for tb in (0, 1):
            take(mpe(datagram(rng, size), address=address, tb=tb), (12, max(address, end)))
    take(frame.datagram_section(1))
    take(frame.datagram_section(0))

    note("with p told, then E")
    for p in (190, 189, 100, 1, 0):
        limit = (COLUMNS - p) * R
        begin(frame)
        take(fec(frame.check_columns[1], p=p, s=1))
        for address, size in ((limit - 19, 20), (limit, 20), (limit + 30, 40)):
            take(mpe(datagram(rng, size), address=address), (12, max(address, limit)))
            take(mpe(datagram(rng, size), address=address, tb=1), (12, max(address, limit)))
        take(mpe(datagram(rng, 40), address=limit - 40))
        take(mpe(datagram(rng, 30), address=limit - 70))
        last = datagram(rng, 40)
        take(mpe(last, address=limit - 80, tb=1), (13, limit - 70))
        start("rs", 0)
        take(fec(frame.check_columns[1], p=p, s=1))
        take(mpe(last, address=limit - 50, tb=1))
        take(mpe(datagram(rng, 20), address=limit - 20), (12, limit - 10))


# ---- 13 ----

def flipped(data, index, bit=0):
    data = bytearray(data)
    data[index] ^= 1 << bit
    return bytes(data)


def differences():
    note("13 by a byte: overlaps that agree are taken, and those that differ in one byte are not")
    frame = Frame(rng, "rs", 0, [100, 60, 45, 300])
    begin(frame)
    take(frame.datagram_section(0))
    address, data = frame.datagrams[0]
    for index in (8, 50, 98, 99):
        for bit in (0, 7):
            take(mpe(flipped(data, index, bit), address=address), (13, address + index))
    take(mpe(flipped(flipped(data, 70), 20), address=address), (13, 20))
    take(mpe(data, address=address))
    # The end of the first datagram is the front of another one.
    inside = bytearray(data)
    inside[60:64] = b"\x45\0\0\x40"
    begin(frame)
    take(mpe(bytes(inside), address=7))
    second = bytes(inside[60:]) + rng.randbytes(24)
    take(mpe(flipped(second, 39), address=67), (13, 106))
    take(mpe(flipped(second, 40), address=67))
    take(mpe(second, address=67), (13, 107))
    take(mpe(bytes(inside), address=7))      # its own first byte, and the one inside, stay starts
    take(mpe(datagram(rng, 27, 4), address=0), (13, 7))
    take(mpe(b"\x45\0\0\x1b" + rng.randbytes(3) + inside[:20], address=0))
    take(mpe(datagram(rng, 20), address=131))
    take(mpe(datagram(rng, 40, 6), address=130), (13, 130))
    take(mpe(datagram(rng, 40, 6), address=92), (13, 92))

    note("13 by a byte of a check column: the place is in the RS table")
    begin(frame)
    for s in (0, 1, 63):
        take(frame.check_section(s))
    for s, index in ((0, 0), (0, 255), (1, 0), (1, 100), (63, 255)):
        take(fec(flipped(frame.check_columns[s], index, 3), p=frame.p, s=s), (13, s * R + index))
    take(fec(flipped(frame.check_columns[2], 9), p=frame.p, s=2))
    take(frame.check_section(2), (13, 2 * R + 9))
    take(fec(flipped(frame.check_columns[0], 5), p=frame.p - 1, s=0), (13, 5))

    note("a first difference counts before another end, and the limit before both")
    begin(frame)
    for k in (0, 1, 3):
        take(frame.datagram_section(k))
    address, data = frame.datagrams[1]
    take(mpe(flipped(data, 40), address=address, tb=1), (13, address + 40))
    take(mpe(data, address=address, tb=1), (13, address + len(data)))
    take(mpe(flipped(frame.datagrams[3][1], 9), address=frame.end - 299, tb=1), (12, frame.end))


def ends():
    frame = Frame(rng, "rs", 0, [100, 60, 45, 51, 60, 20])   # the fourth ends a column
    sections = [frame.datagram_section(k) for k in range(6)]

    def ending(k, **fields):
        return frame.datagram_section(k, tb=1, **fields)

    note("E told twice: the same is taken, a smaller one is refused under 13, a larger one under 12")
    begin(frame)
    take(sections[5])
    take(sections[5])
    for k in range(5):
        take(ending(k), (13, sum(len(data) for _, data in frame.datagrams[:k + 1])))
    take(mpe(datagram(rng, 20), address=frame.end, tb=1), (12, frame.end))
    for k in range(5):
        take(sections[k])
    take(ending(4), (13, 316))
    begin(frame)
    take(ending(2))
    take(sections[5], (12, 316))
    take(sections[3], (12, 205))

    note("E below what was received: also by the last byte, and where a datagram begins just there")
    for others in ((3,), (4,), (5,), (3, 4, 5)):
        begin(frame)
        for k in others:
            take(sections[k])
        take(ending(2), (13, 205))
        take(sections[2])
    begin(frame)
    take(mpe(datagram(rng, 20), address=TABLE - 20))
    take(sections[5], (13, frame.end))
    take(frame.check_section(0), (13, 2 * R))
    take(fec(frame.check_columns[0], p=0, s=0))
    take(fec(frame.check_columns[0], p=1, s=0), (13, 190 * R))

    note("p told twice")
    begin(frame)
    take(frame.check_section(0))
    take(frame.check_section(0))
    take(frame.check_section(1))
    for p in (frame.p + 1, frame.p - 1, 0, 190):
        for s in (0, 2):
            take(fec(frame.check_columns[s], p=p, s=s), (13, (COLUMNS - p) * R))
    take(frame.check_section(2))

    note("p below what was received: the first cell of its padding, the last of the table")
    for address, p, said in ((R, 190, (13, R)), (R - 20, 190, TAKEN), (R - 19, 190, (13, R)), (2 * R, 189, (13, 2 * R)),
                             (TABLE - 20, 1, (13, 190 * R)), (TABLE - R - 20, 1, TAKEN), (TABLE - 20, 0, TAKEN)):
        begin(frame)
        take(mpe(datagram(rng, 20), address=address))
        take(fec(frame.check_columns[0], p=p, s=0), said)
        take(fec(frame.check_columns[7], p=p, s=7), said)

    note("E and p that fit each other and that do not, in both orders")
    for end, p in ((256, 190), (256, 189), (257, 189), (257, 190), (20, 190), (20, 0), (20, 189), (512, 189), (512, 188), (513, 188),
                   (513, 189), (TABLE, 0), (TABLE, 1), (TABLE - R, 0), (TABLE - R, 1), (TABLE - R + 1, 0), (TABLE - R + 1, 1)):
        right, border = p == COLUMNS - -(-end // R), (COLUMNS - p) * R
        last, column = mpe(datagram(rng, 20), address=end - 20, tb=1), fec(frame.check_columns[9], p=p, s=9)
        begin(frame)
        take(last)
        take(column, TAKEN if right else (13, border))
        take(last)
        begin(frame)
        take(column)
        take(last, TAKEN if right else (12, max(border, end - 20)) if border < end else (13, end))
        take(column)

    note("frame_boundary closes nothing, and table_boundary of a check column tells no E")
    begin(frame)
    take(frame.datagram_section(0, fb=1))
    take(frame.check_section(0, fb=1, tb=1, delta_t=0))
    take(frame.datagram_section(5, fb=1))
    take(frame.datagram_section(2, fb=1))


# ---- Marks that the caller put there ----

def put_marks():
    frame = Frame(rng, "rs", 0, [100, 60, 45, 60])
    address, data = frame.datagrams[1]
    note("marks of any bytes under a payload: above 4 nothing is known, a 2 stays a 2")
    begin(frame)
    for first in range(0, 256, 4):
        put(rng.choice((0, *range(5, 256))), first, 4)
    take(frame.datagram_section(1))
    take(frame.datagram_section(0))
    put(2, 7)
    put(2, address + 59)
    put(3, address, 20)
    put(4, address + 20, 20)
    put(9, address + 40, 10)
    take(frame.datagram_section(1))
    take(frame.datagram_section(0))
    start("rs", 0)
    for k, mark in enumerate(rng.sample(range(5, 256), 40)):
        put(mark, address + k)
        put(mark, TABLE + k)
    take(frame.datagram_section(1))
    take(frame.check_section(0))

    note("marks that say a byte is known, of which the cell has another one or the same")
    for mark in range(7):
        begin(frame)
        put(mark, 33)
        take(frame.datagram_section(0), (13, 33) if 1 <= mark <= 4 else TAKEN)
        start("rs", 0)
        take(mpe(flipped(frame.datagrams[0][1], 33), address=0))
        put(mark, 0, 100)
        take(frame.datagram_section(0), (13, 33) if 1 <= mark <= 4 else TAKEN)
        start("rs", 0)
        take(frame.check_section(4))
        put(mark, TABLE + 4 * R, R)
        take(fec(flipped(frame.check_columns[4], 200), p=frame.p, s=4), (13, 4 * R + 200) if 1 <= mark <= 4 else TAKEN)
        put(mark, TABLE + 4 * R, R)
        take(frame.check_section(4))

    note("marks behind an end: only 1 and 2 are received, and padding takes all others")
    for mark in (*range(7), 255):
        for place in (frame.end, TABLE - 1):
            begin(frame)
            put(mark, place)
            take(frame.datagram_section(3), (13, frame.end) if mark in (1, 2) else TAKEN)
        begin(frame)
        put(mark, frame.end - 1)
        put(mark, TABLE)
        take(frame.check_section(0), (13, 0) if 1 <= mark <= 4 else TAKEN)
        take(frame.datagram_section(2))
    begin(frame)
    put(4, 0, TABLE)
    put(1, TABLE, 64 * R)
    put(0, frame.datagrams[3][0], 60)
    take(frame.datagram_section(3))


# ---- Closes ----

def all_taken(code="rs", size_code=0, sizes=(100, 60, 45, 300, 95)):
    """A lawful frame, whose datagrams a burst has taken, and no check column."""
    frame = Frame(rng, code, size_code, sizes, lawful=True)
    begin(frame)
    take_all(frame, sections_of(frame, ()))
    return frame


def known_but(*unknown):
    """The same cells in another burst, all known but these parts."""
    start("rs", 0)
    put(1, 0, (COLUMNS + 64) * R)
    for first, count in unknown:
        put(0, first, count)


def fillings():
    note("no check column came, so 64 bytes of each row are missing: all are filled, and the check columns with them")
    all_taken()
    close((R, 0, 0))
    note("of the same cells others are missing: 65 in each row; 65 in some, 64 in the others")
    known_but((0, 65 * R))
    close((0, 0, R))
    known_but((0, 64 * R), (70 * R + 100, 56))
    close((200, 0, 56))
    lost = [0, 190, 191, 254, *rng.sample([*range(1, 190), *range(192, 254)], 60)]
    kept = [c for c in range(COLUMNS + 64) if c not in lost]
    known_but(*((c * R, R) for c in lost), (kept[0] * R, 1), (kept[100] * R + 44, 1), (kept[-1] * R + 255, 1))
    close((253, 0, 3))
    note("all known, under each mark that says so; then one byte, one column, and most of a row missing")
    known_but()
    close((R, 0, 0))
    known_but()
    for mark in (2, 3, 4):
        put(mark, 3 * mark * R + 5, 2 * R)
    close((R, 0, 0))
    for part in ((1000, 1), (255 * R - 1, 1), (77 * R, R)):
        known_but(part)
        close((R, 0, 0))
    known_but(*((c * R + 9, 1) for c in range(0, 255, 2)))
    close((255, 0, 1))
    note("the other sizes; no section at all, or none but one that tells p")
    all_taken("rs", 3, (1500, 24, 600))
    close((1024, 0, 0), 1024)
    all_taken("rs", 2, (60, 900))
    put(9, 7)
    close((767, 0, 1), 768)
    for code, size_code, rows in (("rs", 0, R), ("rs", 1, 512), ("bare", 2, 768)):
        frame = Frame(rng, code, size_code, [20], lawful=True)
        begin(frame)
        close((0, 0, rows, "unknown"), rows)
    begin(Frame(rng, "rs", 0, [20]))
    take(fec(rng.randbytes(R), p=190, s=0))
    close((R, 0, 0))                         # any 191 bytes begin a codeword, at any places


def tearings():
    note("forged check columns with a right CRC_32: each row with a wrong byte is torn, and nothing is known there then")
    frame = all_taken()
    take(frame.check_section(0))
    take(fec(flipped(flipped(frame.check_columns[5], 7), 8, 6), p=frame.p, s=5))
    take(fec(flipped(frame.check_columns[63], 255, 7), p=frame.p, s=63))
    close((253, 3, 0))
    note("a forged datagram, with one check column and with none: 192 known bytes contradict each other, 191 cannot")
    for numbers, tallies in (((0,), (255, 1, 0)), ((), (R, 0, 0))):
        begin(frame)
        take(mpe(flipped(frame.datagrams[0][1], 50, 3), address=0))
        take_all(frame, sections_of(frame, numbers)[1:])
        close(tallies)
    note("a byte is wrong in rows with 65, 64 and 63 missing: one open, one filled with other bytes, one torn")
    begin(frame)
    column = flipped(flipped(flipped(frame.check_columns[1], 0), 40), 120)
    take(fec(column, p=frame.p, s=1))
    for k in (1, 2, 3, 4):                   # the first datagram is missing: a byte of the rows 0 to 99
        take(frame.datagram_section(k))
    put(0, 100 * R)
    put(0, 101 * R + 10, 5)
    close((249, 1, 6))
    note("bytes that nobody sent: rows of 0xAA are torn, and 191 bytes of them are filled")
    begin(frame)
    put(1, 0, frame.size)
    put(0, 0, 64)
    for k in range(64):
        put(0, (2 * k + 1) * R + 200, 3)
    close((3, 253, 0))


def other_marks():
    note("marks above 4: nothing is known; they are 4 in filled rows, and stay in open ones")
    frame = all_taken()
    put(5, 0, 100)
    put(200, 100, 156)
    take(frame.check_section(3))
    close((R, 0, 0))
    known_but()
    for k, mark in enumerate(rng.sample(range(5, 256), 64)):
        put(mark, 3 * k * R, R)
    put(255, 2 * R + 8, 3)
    close((253, 0, 3))

    note("any marks over the cells of a lawful frame, and over cells that nobody wrote")
    for _ in range(2):
        start("rs", 0)
        first = 0
        while first < frame.size:
            count = min(rng.randint(20, 800), frame.size - first)
            put(rng.choice((1, 2, rng.choice((3, 4)), rng.randrange(256))), first, count)
            first += count
        close(None)
        begin(frame)
    close((0, 0, R, "unknown"))


def bare_closes():
    note("bare: a row is filled where all of it is known")
    frame = all_taken("bare", 0, (300, 40, 200))
    close((R, 0, 0))
    start("bare", 0)
    take(frame.datagram_section(0))
    take(frame.datagram_section(2))
    close((216, 0, 40))
    begin(frame)
    put(1, 0, TABLE)
    put(77, 100 * R + 255, 2)                # the last cell of a column and the first of the next
    close((254, 0, 2))


def refused_closes():
    size = (COLUMNS + 64) * R
    note("2 before 3, and nothing is done: the burst goes on, and is closed at last")
    frame = Frame(rng, "rs", 0, [60, 40], lawful=True)
    begin(frame)
    take(frame.datagram_section(0))
    for scratch, names in ((254, R), (256, R), (0, R), (191, R), (255, 255), (255, 257), (255, 0), (255, 512), (R, 255)):
        close((3, 0), scratch=scratch, names=names)
    take(frame.datagram_section(0))
    for cells, marks in ((size - 1, size), (size, size + 1), (0, 0), (TABLE, TABLE), (2 * size, 2 * size)):
        buffers(cells, marks)
        close((2, 0))
        close((2, 0), scratch=254, names=255)
    buffers(size)
    close((3, 0), names=0)
    take(frame.datagram_section(1))
    take(mpe(datagram(rng, 20), address=100), (12, 100))
    close((196, 0, 60))
    note("bare: the scratch row is to have 255 bytes, too")
    all_taken("bare", 1, (60, 40))
    for scratch, names in ((191, 512), (255, 256), (254, 511)):
        close((3, 0), scratch=scratch, names=names)
    close((512, 0, 0), 512)


def wakes():
    note("when the radio is needed again: by the section taken last, repeated or not, and by none that was refused")
    frame, most = Frame(rng, "bare", 0, [20], lawful=True), 2 ** 32 - 1
    beyond = mpe(datagram(rng, 20), address=20, delta_t=7)
    for moments, wake in (
            ([(0, 1)], 10), ([(0, 4095)], 40950), ([(most, 4095)], 4295008245), ([(most, 1)], 4294967305),
            ([(most, 0)], "end"), ([(0, 0)], "end"), ([(7, 0), (8, 4095)], 40958), ([(7, 9), (8, 0)], "end"),
            ([(most, 500), (3, 2)], 23), ([(1000, 500), (2000, 500)], 7000),
            ([(1000, 500), None], 6000), ([(1000, 500), None, (4, 8), None], 84)):
        begin(frame)
        for moment in moments:
            if moment:
                take(frame.datagram_section(0, delta_t=moment[1]), arrival=moment[0])
            else:
                take(beyond, (12, 20), 9)
        close((R, 0, 0, wake))
    begin(frame)
    take(frame.datagram_section(0)[:-1], (6, 1), 5)
    close((0, 0, R, "unknown"))
    frame = all_taken("rs", 0, (20,))
    take(frame.check_section(0, delta_t=3), arrival=50)
    close((3, 0), scratch=0)
    close((R, 0, 0, 80))


# ---- Read-outs ----

def losses():
    note("nothing is lost: all come out, in the order of their addresses; a second read-out begins anew; the end stays the end")
    frame = Frame(rng, "rs", 0, [60, 20, 300, 45, 256, 41, 21, 90], lawful=True)
    for shuffled in (False, True):
        sections = sections_of(frame, (0, 63))
        if shuffled:
            rng.shuffle(sections)
            sections += rng.sample(sections, 5)
        begin(frame)
        take_all(frame, sections)
        close((R, 0, 0))
        read_out(*frame.datagrams, ends=9)
        read_out(*frame.datagrams, some=3)
        read_out(some=0)
        read_out(*frame.datagrams)
    note("a datagram is lost, and as many check columns come as it has columns; then one fewer, and none")
    for numbers, rows, whole in (((0, 9), (R, 0, 0), True), ((9,), (212, 0, 44), False), ((), (0, 0, R), False)):
        begin(frame)
        sections = sections_of(frame, numbers)
        take_all(frame, sections[:2] + sections[3:])
        close(rows)
        read_out(*(frame.datagrams if whole else frame.datagrams[:2] + frame.datagrams[3:]))

    note("datagrams of whole columns: 64 of a row are missing, and 65, with check columns among them and without")
    frame = Frame(rng, "rs", 0, [R, *[8 * R] * 8, R, R], lawful=True)
    for lost, count, rows in (((), 0, (R, 0, 0)), ((0,), 0, (0, 0, R)), ((2, 4, 5), 24, (R, 0, 0)), ((2, 4, 5), 23, (0, 0, R)),
                              (range(1, 9), 64, (R, 0, 0)), (range(9), 64, (0, 0, R))):
        sections = [frame.check_section(s) for s in rng.sample(range(64), count)]
        sections += [frame.datagram_section(k) for k in range(11) if k not in lost]
        rng.shuffle(sections)
        begin(frame)
        take_all(frame, sections)
        close(rows)
        read_out(*(each for k, each in enumerate(frame.datagrams) if rows[0] or k not in lost))

    note("the other sizes, and the bare code")
    for code, size_code, sizes in (("rs", 1, (600, 60, 45)), ("rs", 3, (1500, 24, 600)), ("bare", 0, (300, 40, 200)), ("bare", 2, (60, 900))):
        frame = all_taken(code, size_code, sizes)
        close((frame.rows, 0, 0), frame.rows)
        read_out(*frame.datagrams)
    frame = all_taken("bare", 0, (300, 40, 200))
    start("bare", 0)
    take(frame.datagram_section(2))
    take(frame.datagram_section(0))
    close((216, 0, 40))
    read_out(frame.datagrams[0], frame.datagrams[2])

    note("without an end: by the table alone, and by p; no section at all")
    frame = Frame(rng, "rs", 0, [60, 20, 300], lawful=True)
    begin(frame)
    for k in (0, 1, 2):
        take(frame.datagram_section(k, tb=0))
    close((0, 0, R))
    read_out(*frame.datagrams)
    begin(frame)
    take(frame.check_section(1))
    for k in (0, 1):
        take(frame.datagram_section(k, tb=0))
    close((80, 0, 176))                      # 65 bytes of the others are missing, or more
    read_out(*frame.datagrams[:2])
    begin(frame)
    close((0, 0, R, "unknown"))
    read_out()


def torn_read_outs():
    note("rows that a forged check column tears: no datagram with a byte there comes out, and the next one marked as a start is found")
    frame = Frame(rng, "rs", 0, [60, 20, 30, 45, 50, 25], lawful=True)
    for row, gone in ((0, (0,)), (59, (0,)), (60, (1,)), (80, (2,)), (82, (2,)), (84, (2,)), (109, (2,)), (112, (3,)), (204, (4,)), (229, (5,)), (230, ())):
        begin(frame)
        take_all(frame, sections_of(frame, (3,)))
        take(fec(flipped(frame.check_columns[4], row), p=frame.p, s=4))
        close((255, 1, 0))
        read_out(*(each for k, each in enumerate(frame.datagrams) if k not in gone))
    note("a forged datagram in the place of one that is lost")
    begin(frame)
    forged = datagram(rng, 45, 4)
    for k in (0, 1, 2, 4, 5):
        take(frame.datagram_section(k))
    take(mpe(forged, address=110))
    close((R, 0, 0))                         # 191 bytes are known of each row, which any codeword begins with
    read_out(*frame.datagrams[:3], (110, forged), *frame.datagrams[4:])
    begin(frame)
    for k in (0, 1, 2, 4, 5):
        take(frame.datagram_section(k))
    take(mpe(forged, address=110))
    take(frame.check_section(0))
    close(None)
    read_out(*frame.datagrams[:3], *frame.datagrams[4:])


def head(version, length):
    """The first six bytes of a datagram that tells this length."""
    if version == 6:
        return b"\x60\0\0\0" + (length - 40).to_bytes(2, "big")
    return bytes([version << 4 | 5, 0]) + length.to_bytes(2, "big") + bytes(2)


def heads():
    note("heads of datagrams, and of none, inside another one; each is marked as the next start in turn; the limit is 5,000, and then the table's end")
    frame = Frame(rng, "rs", 0, [1000, 4000])
    address, data = frame.datagrams[1]
    kinds = [(4, 20), (4, 19), (4, 0), (4, 40), (4, 4080), (4, 4081), (4, 65535), (6, 40), (6, 41), (6, 4080), (6, 4081), (0, 60), (5, 60), (7, 60), (15, 60)]
    inner = [(100 + 7 * k, *kind) for k, kind in enumerate(kinds)]
    # Up to the limit, and one byte beyond it.
    inner += [(300 + 7 * k, version, 4000 - (300 + 7 * k) + k % 2) for k, version in enumerate((4, 4, 6, 6))]
    for place, version, length in inner:
        told = head(version, length)
        data = data[:place] + told + data[place + len(told):]
    for tb in (1, 0):
        begin(frame)
        take(frame.datagram_section(0))
        take(mpe(data, address=address, tb=tb))
        close(None)
        put(0, address)                      # not known any more
        for place, version, length in inner:
            put(2, address + place)
            whole = version in (4, 6) and 20 <= length <= 4000 - place
            read_out(frame.datagrams[0], *[(address + place, data[place:place + length])] * whole)
            put(rng.choice((1, 3, 4)), address + place)

    note("each byte of a datagram that is not known: those of its length keep it from being one, any other from coming out")
    frame = Frame(rng, "rs", 0, [50, 60, 30, 40], lawful=True)
    (_, first), (address, data), *others = frame.datagrams
    for version, told in ((4, (0, 2, 3)), (6, (0, 4, 5))):
        data = datagram(rng, 60, version)
        begin(frame)
        take(mpe(first, address=0))
        take(mpe(data, address=address))
        for k, (_, each) in enumerate(others):
            take(mpe(each, address=frame.datagrams[2 + k][0], tb=k))
        close((R, 0, 0))
        for index in (0, 1, 2, 3, 4, 5, 6, 58, 59):
            put(2, address)
            put(rng.choice((0, 5, 255)), address + index)
            # Where it is no datagram, the next start is taken: the one behind it, or one inside.
            inside = rng.randrange(10, 50)
            put(2, address + inside)
            read_out(frame.datagrams[0], *frame.datagrams[2:])
            put(1, address + inside)
            put(rng.choice((1, 3, 4)), address + index)
        read_out(frame.datagrams[0], (address, data), *frame.datagrams[2:])
        put(1, frame.datagrams[2][0])        # no start any more
        put(0, address)
        read_out(frame.datagrams[0], frame.datagrams[3])
        put(0, address + 2)
        put(3, address)
        put(0, 0, 50)
        read_out(frame.datagrams[3])
        put(1, frame.datagrams[3][0])
        read_out()


def places():
    note("a datagram may end at the limit, and one that begins there is none; starts behind the limit do not count")
    frame = Frame(rng, "rs", 0, [40, 50], lawful=True)
    begin(frame)
    take_all(frame, sections_of(frame, ()))
    close((R, 0, 0))
    put(2, 90)
    put(2, TABLE - 20)
    read_out(*frame.datagrams)
    put(0, 40)
    read_out(frame.datagrams[0])
    note("at the end of the table")
    frame = Frame(rng, "rs", 0, [20], lawful=True)
    for size in (20, 40, 4080):
        last = datagram(rng, size, 4)
        begin(frame)
        take(frame.datagram_section(0, tb=0))
        take(mpe(last, address=TABLE - size, tb=rng.randrange(2)))
        close(None)
        read_out(frame.datagrams[0], (TABLE - size, last))
        put(0, TABLE - 1)
        read_out(frame.datagrams[0])
    note("a cell of 0 is no datagram: zeros up to the next start")
    frame = Frame(rng, "rs", 0, [30, 20], lawful=True)
    begin(frame)
    take(frame.datagram_section(1))
    close((226, 0, 30))
    read_out(frame.datagrams[1])
    put(1, 0, 30)                            # 0xAA
    read_out(frame.datagrams[1])


def refused_opens():
    size = (COLUMNS + 64) * R
    note("2, where other buffers are lent, of one wrong length or both; the closed burst can still be opened")
    frame = all_taken("rs", 0, (60, 40))
    close((R, 0, 0))
    for cells, marks in ((size, size - 1), (size - 1, size), (size, size + 1), (0, 0), (TABLE, TABLE), (2 * size, 2 * size)):
        buffers(cells, marks)
        no_read_out()
    buffers(size)
    read_out()
    put(1, 0, 100)
    put(2, 20)
    read_out()                               # 0xAA in each cell
    note("a start that is refused leaves the closed burst, too")
    start("rs", 9, (1, 0))
    read_out()
    note("bare")
    frame = all_taken("bare", 1, (60, 40))
    close((512, 0, 0), 512)
    read_out(*frame.datagrams)
    for cells, marks in ((size, size), (2 * TABLE, 2 * TABLE - 1), (2 * TABLE + 1, 2 * TABLE), (2 * size, 2 * size)):
        buffers(cells, marks)
        no_read_out()


def at_random():
    note("sections at random")
    for _ in range(4):
        lines.extend(random_burst(rng, 25, most=200))


# ---- The files ----

FOLDER = sys.argv[1] if len(sys.argv) > 1 else ROOT
lines, due = [], {}
rng = random.Random(191256)
for cases in (starts, lawful, refused_alone, beyond_limit, differences, ends, put_marks,
              fillings, tearings, other_marks, bare_closes, refused_closes, wakes,
              losses, torn_read_outs, heads, places, refused_opens, at_random):
    if lines:
        lines.append("")
    cases()
# The last line ends with a carriage return too, which makes no difference.
read = "\n".join(lines) + "\r\n"
told = {number: [answer for _, answer in group] for number, group
        in itertools.groupby(reference.answered(read.splitlines()), lambda pair: pair[0])}
for number, answers in told.items():
    said = due.get(number, [None] * len(answers))
    assert len(said) == len(answers), (number, lines[number - 1][:100], said, answers)
    for one, answer in zip(said, answers):
        word, *rest = answer.split(" ")
        found = (int(rest[0]), int(rest[2])) if word == "refused" else answer
        assert one in (None, found) or answer.startswith(f"{one} "), (number, lines[number - 1][:100], one, answer)
assert due.keys() <= told.keys()
store("crates/bursttake/stdin", read)
store("crates/bursttake/stdout", "".join(answer + "\n" for answers in told.values() for answer in answers))
