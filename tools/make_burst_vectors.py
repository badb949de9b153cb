#!/usr/bin/python3
"""Make the stored files of the program that lists the datagrams of a burst, always the
same bytes; what is to come is the second receiver's, and what the burst was made to be:

  crates/burstlist/stdin     sections laid back to back
  crates/burstlist/stdout    the datagrams that come out, and the five numbers

make_burst_vectors.py [FOLDER] writes below FOLDER; without it, below the repository's
root. make_burst_vectors.py --cases FOLDER writes other bursts there, each with the
listing that is due: NAME and NAME.stdout; with the word few behind, only those in which
no row is filled, and one more: filling takes long where a program is built with checks.
Needs no package."""
import os
import random
import sys

sys.dont_write_bytecode = True
import reference_burst as reference
from reference_list import cut
from reference_take import Section
from reference_write import fec, mpe, sealed
from take_compare import Frame, datagram, flip

ROOT = os.path.dirname(os.path.dirname(os.path.abspath(__file__)))
R = 256


def store(name, data):
    os.makedirs(os.path.dirname(name), exist_ok=True)
    with open(name, "wb") as file:
        file.write(data)


def frame_of(*sizes):
    return Frame(rng, "rs", 0, sizes, lawful=True)


def sections_of(frame, numbers=(), lost=()):
    """Every datagram section but the lost ones, and the check columns with these numbers."""
    return ([frame.datagram_section(k) for k in range(len(frame.datagrams)) if k not in lost]
            + [frame.check_section(s) for s in numbers])


def shuffled(sections):
    return rng.sample(sections, len(sections))


def flipped(data, index, bit=0):
    data = bytearray(data)
    data[index] ^= 1 << bit
    return bytes(data)


def with_row_flipped(frame, s, row):
    """A check column of which one byte is another; CRC_32 is right."""
    return fec(flipped(frame.check_columns[s], row), p=frame.p, s=s, last=63)


def but(frame, *gone):
    return [(address, len(data)) for k, (address, data) in enumerate(frame.datagrams) if k not in gone]


# ---- Bursts: each the name, the sections, the datagrams that come out, and the five numbers ----

def bursts():
    yield "nothing", [], [], (0, 0, 0, 0, 256)
    small = datagram(rng, 20)
    yield "one_section", [mpe(small, tb=1)], [(0, 20)], (1, 0, 256, 0, 0)

    frame = frame_of(60, 20, 300, 45, 256, 41, 21, 90, 1500, 77)
    whole = sections_of(frame, (0, 5, 63))
    yield "no_loss", whole, but(frame), (13, 0, 256, 0, 0)
    yield "no_check_columns", sections_of(frame), but(frame), (10, 0, 256, 0, 0)
    yield "shuffled", shuffled(whole), but(frame), (13, 0, 256, 0, 0)
    yield "repeated", shuffled(whole + rng.sample(whole, 7)), but(frame), (20, 0, 256, 0, 0)
    yield "one_lost", sections_of(frame, (0, 63), lost=(2,)), but(frame), (11, 0, 256, 0, 0)
    yield "rows_open", sections_of(frame, (7,), lost=(2,)), but(frame, 2), (10, 0, 212, 0, 44)
    yield "one_lost_for_good", sections_of(frame, (), lost=(4,)), but(frame, 4), (9, 0, 0, 0, 256)
    yield "last_one_lost", sections_of(frame, (), lost=(9,)), but(frame, 9), (9, 0, 0, 0, 256)
    yield "short_rest", [*whole, whole[0][:2]], but(frame), (13, 1, 256, 0, 0)
    yield "cut_short", [*whole, whole[1][:-1]], but(frame), (13, 1, 256, 0, 0)
    yield "damaged", [flipped(each, 40) for each in whole[3:6]] + whole, but(frame), (13, 3, 256, 0, 0)
    # The length that one tells leads into the next: the cutting goes on behind both.
    yield "misled", [flipped(whole[0], 2), *whole[1:]], None, None

    frame = frame_of(*[R] * 191)
    columns = range(64)
    for lost, come in ((0, 0), (20, 20), (20, 64), (64, 64), (40, 40)):
        sections = shuffled(sections_of(frame, rng.sample(columns, come), rng.sample(range(190), lost)))
        yield f"lost_{lost}_of_191_with_{come}_check_columns", sections, but(frame), (191 - lost + come, 0, 256, 0, 0)
    for lost, come in ((1, 0), (20, 19), (65, 64), (40, 39)):
        gone = rng.sample(range(191), lost)
        sections = shuffled(sections_of(frame, rng.sample(columns, come), gone))
        yield f"lost_{lost}_of_191_with_{come}_check_columns", sections, but(frame, *gone), (191 - lost + come, 0, 0, 0, 256)

    frame = frame_of(60, 20, 30, 45, 50, 25)
    for row, gone in ((0, 0), (82, 2), (112, 3), (229, 5)):
        sections = sections_of(frame, (3,)) + [with_row_flipped(frame, 4, row)]
        yield f"row_{row}_torn", shuffled(sections), but(frame, gone), (8, 0, 255, 1, 0)
    yield "row_230_torn", [with_row_flipped(frame, 4, 230), *sections_of(frame, (3,))], but(frame), (8, 0, 255, 1, 0)
    forged = mpe(datagram(rng, 45, 4), address=110)
    yield "forged_datagram", [forged, *sections_of(frame, lost=(3,))], but(frame), (6, 0, 256, 0, 0)
    yield "forged_datagram_with_a_check_column", [forged, *sections_of(frame, (0,), lost=(3,))], but(frame, 3), None
    yield "forged_datagram_before_the_right_one", [forged, *sections_of(frame)], but(frame), (6, 1, 256, 0, 0)

    yield "other_ends", [mpe(small, address=100, tb=1), *sections_of(frame)], None, None
    yield "without_an_end", [mpe(small, address=k * 20) for k in range(9)], [(k * 20, 20) for k in range(9)], (9, 0, 0, 0, 256)
    yield "gaps", [mpe(small, address=k * 25) for k in range(9)], [(k * 25, 20) for k in range(9)], (9, 0, 0, 0, 256)
    yield "at_the_end_of_the_table", [mpe(small, address=191 * R - 20)], [(191 * R - 20, 20)], (1, 0, 0, 0, 256)

    frame = frame_of(*[20] * 2444)
    yield "smallest", shuffled(sections_of(frame)), but(frame), (2444, 0, 256, 0, 0)
    frame = frame_of(*[4080] * 11, 4016)
    yield "largest", sections_of(frame, columns), but(frame), (76, 0, 256, 0, 0)
    yield "largest_lost", sections_of(frame, columns, lost=(0, 4, 9)), but(frame), (73, 0, 256, 0, 0)
    yield "largest_lost_for_good", sections_of(frame, columns, lost=(0, 1, 4, 9, 11)), but(frame, 0, 1, 4, 9, 11), (71, 0, 0, 0, 256)

    with open(os.path.join(ROOT, "samples", "burst.bin"), "rb") as file:
        sample = [piece for _, piece in cut(file.read())]
    came = [(each.address, len(each.payload)) for each in map(Section, sample[:12])]
    yield "sample", sample, came, (16, 2, 256, 0, 0)
    # Its check columns are libfec's.
    yield "sample_with_losses", [*sample[:3], *sample[5:]], came, (14, 2, 256, 0, 0)

    none = b"\x3E\xB0\0"
    good = mpe(small, tb=1)
    yield "20_000", [none] * 19_999 + [good], [(0, 20)], (1, 19_999, 256, 0, 0)
    yield "20_001", [none] * 20_000 + [good], [], (0, 20_000, 0, 0, 256)
    yield "garbage", [rng.randbytes(30_000)], [], None
    yield "zeros", [bytes(3_000)], [], (0, 1_000, 0, 0, 256)


def stored_burst():
    """One burst with all of it: losses that are made good and others, a row that is torn,
    repeats, sections that are refused, and a rest."""
    frame = frame_of(200, 60, 20, 312, 45, 256, 41, 500, 77, 90, 1028, 21, 88, 300)
    lost = 3, 5, 9, 12                       # two bytes of each row, three of some, and four of the rows 24 to 64
    sections = shuffled(sections_of(frame, (0, 17), lost) + [with_row_flipped(frame, 5, 230)])
    sections[5:5] = rng.sample(sections, 3)
    sections[9:9] = [flip(rng, sections[3]), sections[2][:-1] + b"\0", sealed(b"\x3F" + sections[1][1:-4])]
    sections.append(sections[0][:14])
    gone = 1, 3, 5, 7, 8, 9, 10, 13
    return "stored", sections, but(frame, *gone), (16, 4, 214, 1, 41)


def made(name, sections, datagrams, numbers):
    """(stream, listing) of a burst, which is what it was made to be."""
    stream = b"".join(sections)
    listing = reference.listing(stream)
    *lines, last = listing.splitlines()
    found = [tuple(map(int, line.split())) for line in lines]
    assert datagrams in (None, found), (name, datagrams, found)
    assert numbers in (None, tuple(map(int, last.split()))), (name, numbers, last)
    return stream, listing.encode()


rng = random.Random(2444)

if __name__ == "__main__":
    if sys.argv[1:2] == ["--cases"]:
        few = sys.argv[3:] == ["few"]
        for name, *burst in bursts():
            stream, listing = made(name, *burst)
            if few and name != "one_section" and int(listing.split()[-3]):
                continue
            store(os.path.join(sys.argv[2], name), stream)
            store(os.path.join(sys.argv[2], name + ".stdout"), listing)
    else:
        folder = os.path.join(sys.argv[1] if len(sys.argv) > 1 else ROOT, "crates", "burstlist")
        stream, listing = made(*stored_burst())
        store(os.path.join(folder, "stdin"), stream)
        store(os.path.join(folder, "stdout"), listing)
