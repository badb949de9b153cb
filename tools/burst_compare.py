#!/usr/bin/python3
"""burst_compare.py PROGRAM [SEED [BURSTS]]: have PROGRAM (burstlist) list the datagrams of
bursts, and hold each listing, byte for byte, against that of the second receiver: the
bursts that make_burst_vectors.py makes, and others at random, of sections that are lost,
repeated, forged and damaged, or of any bytes. The seed is another one each time, and is
printed: with it the same bursts come again. Without BURSTS there are 40 at random. Ends
with status 1 on a difference."""
import collections
import random
import subprocess
import sys

sys.dont_write_bytecode = True
import make_burst_vectors as made
import reference_burst as reference
from take_compare import lossy_burst, random_burst

OWN = dict(codes=("rs",), size_codes=(0,))


def sections_of(lines):
    """The sections that lines of bursttake have a burst take."""
    return [bytes.fromhex(words[2]) for words in (line.split(" ") for line in lines) if words[0] == "take" and words[2] != "-"]


def burst(rng):
    """The bytes of a burst at random."""
    kind = rng.randrange(8)
    if kind == 0:
        sections = [rng.randbytes(rng.randrange(6000))]
    elif kind < 3:
        sections = sections_of(random_burst(rng, rng.choice((10, 60)), **OWN))
    else:
        sections = sections_of(lossy_burst(rng, **OWN))
        sections += rng.sample(sections, min(len(sections), rng.choice((0, 0, 3))))
        if rng.randrange(2):
            rng.shuffle(sections)
    stream = b"".join(sections)
    return stream[:-rng.randrange(1, 30)] if rng.randrange(4) == 0 else stream


def main(program, seed=None, bursts=40):
    seed = random.SystemRandom().randrange(10 ** 9) if seed is None else int(seed)
    print(f"seed {seed}")
    rng = random.Random(seed)
    named = [(name, b"".join(sections)) for name, sections, *_ in made.bursts()]
    named += [(f"at random, {number}", burst(rng)) for number in range(int(bursts))]
    different, counts = 0, collections.Counter()
    for name, stream in named:
        want = reference.listing(stream)
        ran = subprocess.run([program], input=stream, stdout=subprocess.PIPE, stderr=subprocess.DEVNULL)
        if ran.returncode or ran.stdout != want.encode():
            different += 1
            print(f"DIFFERENT: {name}: status {ran.returncode}\n  printed {ran.stdout[-300:]}\n  due     {want[-300:]}")
        *datagrams, last = want.splitlines()
        counts.update(dict(zip(("taken", "refused", "rows filled", "torn", "open"), map(int, last.split()))))
        counts["datagrams"] += len(datagrams)
    print(f"{len(named)} bursts compared, {different} differences")
    print("  " + ", ".join(f"{name}: {counts[name]}" for name in counts))
    return 1 if different else 0


if __name__ == "__main__":
    sys.exit(main(*sys.argv[1:]))
