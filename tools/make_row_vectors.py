#!/usr/bin/python3
"""Make the stored files of the programs that work on rows anew, always the same
bytes; what is to come out of a row is libfec's, and of the bare code's the rule's; what
becomes of the demonstration's bursts is the second receiver's:

  crates/rowmend/stdin       rows to mend and to spread, a line each
  crates/rowmend/stdout      the answers
  crates/linkdemo/stdout     what the demonstration tells

make_row_vectors.py [FOLDER] writes below FOLDER; without it, below the
repository's root. Needs libfec: without it nothing is made, and the status is 2."""
import itertools
import os
import random
import sys

sys.dont_write_bytecode = True
import reference_demo
import reference_rows as reference
from reference_rows import CHECK_BYTES, FILLED, GIVEN, MISFIT, OPEN, ROW, SPREAD, TORN

ROOT = os.path.dirname(os.path.dirname(os.path.abspath(__file__)))


def store(name, text):
    path = os.path.join(FOLDER, name)
    os.makedirs(os.path.dirname(path), exist_ok=True)
    with open(path, "w", newline="") as file:
        file.write(text)


# ---- Rows, and what becomes of them on the way ----

def codeword():
    return libfec.spread(rng.randbytes(GIVEN))


def missing(row, places):
    return [None if i in places else byte for i, byte in enumerate(row)]


def wrong(row, count):
    """That many known bytes have another value."""
    row = list(row)
    for i in rng.sample([i for i, byte in enumerate(row) if byte is not None], count):
        row[i] ^= rng.randrange(1, 256)
    return row


def scattered(count, low=0, high=ROW):
    """That many places."""
    return set(rng.sample(range(low, high), count))


def bursts(count):
    """Places side by side: at both ends, across the border to the check bytes, right before
    and behind it, and anywhere."""
    across = GIVEN - (count + 1) // 2
    for start in (0, ROW - count, across, GIVEN - count, min(GIVEN, ROW - count), rng.randint(0, ROW - count)):
        yield set(range(start, start + count))


def some_bytes(count):
    return list(rng.randbytes(count))


# ---- The lines, and what some of them were made to be ----

def ask(code, call, row, said):
    """`said`: what the answer must be by the rules alone; none where libfec is to say it."""
    lines.append(f"{code} {call} {reference.word(row)}")
    due.append(said)


def mend(row, said=None):
    ask("rs", "mend", row, said)


def worked():
    """Rows of zeros, known in part."""
    zeros = [0] * ROW
    for count, said in ((CHECK_BYTES, FILLED), (CHECK_BYTES + 1, OPEN)):
        for places in (*bursts(count), *(scattered(count) for _ in range(4))):
            mend(missing(zeros, places), said)
    # One 0x01 among 192 known bytes, the first, the last and any others of them.
    for places in (*bursts(CHECK_BYTES - 1), *(scattered(CHECK_BYTES - 1) for _ in range(4))):
        known = [i for i in range(ROW) if i not in places]
        for one in (known[0], known[-1], rng.choice(known[1:-1])):
            row = missing(zeros, places)
            row[one] = 1
            mend(row, TORN)
    for one in (0, 1, 127, 190, 191, 253, 254):
        mend(zeros[:one] + [1] + zeros[one + 1:], TORN)
    # One 0x01 among 191 known bytes is another codeword's.
    for places in bursts(CHECK_BYTES):
        row = missing(zeros, places)
        row[rng.choice([i for i in range(ROW) if i not in places])] = 1
        mend(row, FILLED)


def mended():
    # Right bytes, each count of missing ones: scattered, side by side, among the given bytes or the check bytes alone.
    for count in range(CHECK_BYTES + 1):
        mend(missing(codeword(), scattered(count)), FILLED)
    for count in (1, 2, 7, 8, 16, 31, 32, 33, 48, 63, 64):
        for places in bursts(count):
            mend(missing(codeword(), places), FILLED)
        for low, high in ((0, GIVEN), (GIVEN, ROW)):
            mend(missing(codeword(), scattered(count, low, high)), FILLED)
    for given in (0x00, 0xFF):
        row = libfec.spread([given] * GIVEN)
        for count in (0, 1, 40, 64):
            mend(missing(row, scattered(count)), FILLED)

    # Wrong bytes among the known ones: as many as the decoder could put right, and more. With 1 to 64 - count wrong bytes
    # no codeword agrees; with 64 missing one always does. Some are left out, so that the file stays small.
    for count in range(CHECK_BYTES + 1):
        left = CHECK_BYTES - count
        for wrongs in sorted({1, (2, 3)[count % 2], left // 2, left // 2 + 1, left, (left + 1, ROW - count)[count % 2]} - {0}):
            said = FILLED if left == 0 else TORN if wrongs <= left else None
            if (count + wrongs) % 3 or wrongs in (1, left // 2):
                mend(wrong(missing(codeword(), scattered(count)), wrongs), said)
    for count in (0, 1, 2, 40, 62, 63):
        for places in bursts(count):
            mend(wrong(missing(codeword(), places), 1), TORN)
    # One bit of one known byte.
    for count, bit in itertools.product((0, 30, 63), range(8)):
        row = missing(codeword(), scattered(count))
        row[rng.choice([i for i, byte in enumerate(row) if byte is not None])] ^= 1 << bit
        mend(row, TORN)
    # Two codewords that differ in 65 places, the fewest that two can. Some of these are missing, and the others are the
    # second one's, or all but one are.
    for count in (0, 1, 31, 62, 63):
        first = codeword()
        odd = missing([0] * ROW, scattered(CHECK_BYTES))
        odd[rng.choice([i for i in range(ROW) if odd[i] == 0])] = rng.randrange(1, 256)
        apart = libfec.mended(odd)[1]
        second = [a ^ b for a, b in zip(first, apart)]
        places = [i for i in range(ROW) if apart[i]]
        assert len(places) == CHECK_BYTES + 1
        rng.shuffle(places)
        mend(missing(second, places[:count]), FILLED)
        second[places[-1]] = first[places[-1]]
        mend(missing(second, places[:count]), TORN)
    # Bytes that nobody sent.
    for count in (0, 1, 20, 63):
        mend(missing(some_bytes(ROW), scattered(count)))
    mend(missing(some_bytes(ROW), scattered(CHECK_BYTES)), FILLED)
    # A codeword moved round by one place is one again; backwards it is none, nor is one of the code whose roots begin with
    # g^1.
    for count in (0, 20):
        row = codeword()
        mend(missing(row[1:] + row[:1], scattered(count)), FILLED)
        mend(missing(row[::-1], scattered(count)), TORN)
        mend(missing(reference.Libfec(first_root=1).spread(rng.randbytes(GIVEN)), scattered(count)), TORN)

    # Too few known.
    for count in (65, 66, 100, 127, 190, 191, 192, 254, 255):
        mend(missing(codeword(), scattered(count)), OPEN)
        mend(missing(some_bytes(ROW), scattered(count)), OPEN)
    for count in (65, 100):
        for places in bursts(count):
            mend(missing(codeword(), places), OPEN)
    mend(wrong(missing(codeword(), scattered(65)), 100), OPEN)

    # Other lengths.
    for size in (0, 1, 64, 190, 191, 192, 254, 256, 446, 510):
        mend(missing(some_bytes(size), scattered(size // 3, 0, size)), MISFIT)
    mend([0] * 254, MISFIT)
    mend([0] * 256, MISFIT)
    mend([None] * 254, MISFIT)
    mend([None] * 256, MISFIT)


def spread():
    """What stands behind the given bytes makes no difference."""
    for given in ([0] * GIVEN, [0xFF] * GIVEN, *(some_bytes(GIVEN) for _ in range(6))):
        for behind in ([0] * CHECK_BYTES, [0xFF] * CHECK_BYTES, some_bytes(CHECK_BYTES), libfec.spread(given)[GIVEN:]):
            ask("rs", "spread", given + behind, SPREAD)
    for one in (0, 1, 95, 189, 190):
        for value in (0x01, 0x80):
            ask("rs", "spread", [0] * one + [value] + [0] * (ROW - one - 1), SPREAD)
    for size in (0, 1, 64, 190, 191, 192, 254, 256, 510):
        ask("rs", "spread", some_bytes(size), MISFIT)


def bare():
    for row in (some_bytes(GIVEN), some_bytes(GIVEN), [0] * GIVEN, [0xFF] * GIVEN):
        ask("bare", "mend", row, FILLED)
        ask("bare", "spread", row, SPREAD)
    for places in ({0}, {95}, {190}, {189, 190}, scattered(64, 0, GIVEN), set(range(GIVEN))):
        ask("bare", "mend", missing(some_bytes(GIVEN), places), OPEN)
    for size in (0, 1, 64, 190, 192, 254, 255, 256):
        ask("bare", "mend", missing(some_bytes(size), scattered(size // 2, 0, size)), MISFIT)
        ask("bare", "mend", some_bytes(size), MISFIT)
        ask("bare", "spread", some_bytes(size), MISFIT)


# ---- The demonstration ----

def in_hex(data):
    """Sixteen to a line."""
    return ["   " + " ".join("%02X" % byte for byte in data[i:i + 16]) for i in range(0, len(data), 16)]


def demonstration():
    text = "Lozkidar: the link layer of DVB-H terminals. "
    sent = libfec.spread((text * 5).encode()[:GIVEN])
    stays = "the row stays as it came"
    endings = {FILLED: "filled: every byte is as it was sent", TORN: "torn: " + stays, OPEN: "open: " + stays}

    def mend_lines(said, lost, flipped=()):
        row = missing(sent, lost)
        for i in flipped:
            row[i] ^= 1
        answer, after = libfec.mended(row)
        assert answer == said and after == (sent if said == FILLED else reference.stands(row))
        return [f"   missing {len(lost)}, known {ROW - len(lost)}, of these wrong {len(flipped)}",
                f"   Mend answers {said}, {endings[said]}."]

    return "".join(line + "\n" for line in [
        "1. The row is given 191 bytes, this text over and over:",
        f'   "{text}"',
        "   Spread writes 64 check bytes behind them:",
        *in_hex(sent[GIVEN:]),
        *mend_lines(FILLED, range(0)),
        "",
        "2. Bytes 150 to 213 are lost, as many as can be filled:",
        *mend_lines(FILLED, range(150, 214)),
        "",
        "3. Bytes 100 to 164 are lost, one too many:",
        *mend_lines(OPEN, range(100, 165)),
        "",
        "4. Bytes 0 to 39 are lost, and the lowest bit of byte 200 is flipped:",
        *mend_lines(TORN, range(40), flipped=[200]),
        "",
        *reference_demo.burst(libfec),
    ])


# ---- The files ----

FOLDER = sys.argv[1] if len(sys.argv) > 1 else ROOT
if not reference.have_libfec():
    print("libfec is not there: nothing is made", file=sys.stderr)
    sys.exit(2)
libfec = reference.Libfec()
lines, due = [], []
rng = random.Random(255191)
for cases in (worked, mended, spread, bare):
    cases()
answers = [libfec.answer(line) for line in lines]
for line, said, answer in zip(lines, due, answers):
    assert said in (None, answer.split(" ")[0]), (line, said, answer)
    assert reference.contradiction(line, answer) is None, (line, answer)
# The last line ends with a carriage return too, which makes no difference.
read, told = "\n".join(lines) + "\r\n", "".join(answer + "\n" for answer in answers)
store("crates/rowmend/stdin", read)
store("crates/rowmend/stdout", told)
store("crates/linkdemo/stdout", demonstration())
