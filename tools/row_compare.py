#!/usr/bin/python3
"""row_compare.py PROGRAM [SEED [ROWS]]: make rows at random, have PROGRAM (rowmend)
mend and spread them, and hold each answer, and the row afterwards, against libfec.
The seed is another one each time, and is printed: with it the same rows come again.
Without ROWS there are 10,000. Ends with status 1 on a difference, 2 if libfec is
missing."""
import collections
import random
import subprocess
import sys

sys.dont_write_bytecode = True
import reference_rows as reference
from reference_rows import CHECK_BYTES, GIVEN, ROW, WIDTHS

NAMES = {reference.FILLED: "filled", reference.TORN: "torn", reference.OPEN: "open"}


def lost(rng, size, count):
    """That many places of a row, alone or side by side."""
    if rng.randrange(2):
        return rng.sample(range(size), count)
    places = set()
    while len(places) < count:
        start, length = rng.randrange(size), rng.randint(1, count - len(places))
        places.update(range(start, min(start + length, size)))
    return places


def row_to_mend(rng, libfec):
    row = libfec.spread(rng.randbytes(GIVEN))
    if rng.randrange(20) == 0:
        row = list(rng.randbytes(ROW))       # nothing that was sent
    wrong = rng.choice([0, 0, 0, 0, 1, 2, rng.randint(1, CHECK_BYTES), rng.randint(1, ROW)])
    for i in rng.sample(range(ROW), wrong):
        row[i] ^= rng.randrange(1, 256)
    count = rng.choice([rng.randint(0, CHECK_BYTES), rng.randint(0, CHECK_BYTES), rng.randint(60, 68), rng.randint(0, ROW)])
    for i in lost(rng, ROW, count):
        row[i] = None
    return row


def line(rng, libfec):
    kind = rng.randrange(100)
    code, call = "bare" if kind < 5 else "rs", "spread" if kind in (0, 1) or kind > 85 else "mend"
    size = rng.randrange(300) if kind in (4, 5, 99) else WIDTHS[code]
    if (code, call, size) == ("rs", "mend", ROW):
        row = row_to_mend(rng, libfec)
    else:
        row = list(rng.randbytes(size))
        if call == "mend":
            for i in lost(rng, size, rng.choice([0, rng.randint(0, size)])):
                row[i] = None
    return f"{code} {call} {reference.word(row)}"


def main(program, seed=None, rows=10000):
    if not reference.have_libfec():
        print("not there: libfec")
        return 2
    seed = random.SystemRandom().randrange(10 ** 9) if seed is None else int(seed)
    print(f"seed {seed}")
    rng, libfec = random.Random(seed), reference.Libfec()
    given = [line(rng, libfec) for _ in range(int(rows))]
    ran = subprocess.run([program], input="".join(each + "\n" for each in given), stdout=subprocess.PIPE, text=True)
    got = ran.stdout.splitlines()
    different, counts = int(ran.returncode != 0), collections.Counter()
    if ran.returncode:
        print(f"DIFFERENT: {program} ended with status {ran.returncode}")
    if len(got) != len(given):
        print(f"DIFFERENT: {len(given)} lines, {len(got)} answers")
        different += 1
    for number, (text, answer) in enumerate(zip(given, got), 1):
        want = libfec.answer(text)
        code, call, _ = text.split(" ")
        said = want.split(" ")[0]
        counts[f"{code} {call}: {NAMES.get(said, said)}"] += 1
        if answer != want:
            different += 1
            if different < 10:
                print(f"DIFFERENT: line {number}\n  {text}\n  printed {answer}\n  due     {want}")
    print(f"{sum(counts.values())} rows compared, {different} differences")
    for name in sorted(counts):
        print(f"  {name} {counts[name]}")
    return 1 if different else 0


if __name__ == "__main__":
    sys.exit(main(*sys.argv[1:]))
