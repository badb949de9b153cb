#!/usr/bin/python3
"""take_compare.py PROGRAM [SEED [BURSTS]]: make bursts at random, have PROGRAM
(bursttake) take their sections, close them and read them out, and hold each answer, and
the checksums of the buffers after it, against the second receiver. The seed is another
one each time, and is printed: with it the same bursts come again. Without BURSTS there
are 40, of 40 lines each and those of close and read-outs, and a third as many lawful
ones that come with losses. Then lines that cannot be obeyed must end PROGRAM. Ends with
status 1 on a difference.

The scripts that make the stored bursts have datagrams and frames from here too."""
import collections
import random
import struct
import subprocess
import sys

sys.dont_write_bytecode = True
import reference_take as reference
from reference_rows import spread_all
from reference_take import CHECK_COLUMNS, COLUMNS, ROWS
from reference_write import fec, mpe, sealed

MOST = 4080                                  # bytes of a datagram
CALLS = ("start", "take", "close", "open")   # the lines that are answered
ENDING = {                                   # lines that end the program at its start
    "take 0 -": "no burst is open",
    "close 255 256": "no burst is open",
    "open 1": "no burst is closed",
    "put 1 0 1": "there are not so many marks",
}


def datagram(rng, size, version=None):
    """So many bytes that are one whole datagram, by version and length alone."""
    version = version or (4 if size < 40 else rng.choice((4, 4, 6)))
    head = struct.pack(">BBH", 0x45, 0, size) if version == 4 else struct.pack(">IH", 6 << 28, size - 40)
    return head + rng.randbytes(size - len(head))


def sizes_for(rng, end, most=MOST):
    """Sizes of datagrams that end there: 20 bytes or more."""
    sizes = []
    while end > most or sizes == [] and end > 100:
        sizes.append(rng.randint(20, min(most, end - 20)))
        end -= sizes[-1]
    return sizes + [end]


class Frame:
    """A frame as a sender lays it out; where it is not to be lawful, with any bytes as
    check columns: take knows no codewords."""

    def __init__(self, rng, code, size_code, sizes, lawful=False):
        self.code, self.size_code, self.rng = code, size_code, rng
        self.rows, self.columns = ROWS[size_code], CHECK_COLUMNS[code]
        self.size = (COLUMNS + self.columns) * self.rows
        self.datagrams, self.end = [], 0     # (address, datagram)
        for size in sizes:
            self.datagrams.append((self.end, datagram(rng, size)))
            self.end += size
        assert self.end <= COLUMNS * self.rows
        self.p = COLUMNS - -(-self.end // self.rows)
        self.check_columns = [rng.randbytes(self.rows) for _ in range(self.columns)]
        if lawful and self.columns:
            cells = b"".join(data for _, data in self.datagrams).ljust(COLUMNS * self.rows, b"\0")
            self.check_columns = spread_all([cells[i:i + self.rows] for i in range(0, len(cells), self.rows)])

    def loose(self):
        """Fields that may have any value."""
        return dict(delta_t=self.rng.choice((0, 500, self.rng.randrange(4096))), fb=self.rng.randrange(2))

    def datagram_section(self, k, **fields):
        address, data = self.datagrams[k]
        fields = dict(address=address, tb=int(address + len(data) == self.end), **self.loose()) | fields
        return mpe(data, self.rng.randrange(256), self.rng.randrange(256), **fields)

    def check_section(self, s, **fields):
        fields = dict(p=self.p, s=s, last=self.rng.randint(s, self.columns - 1), address=s * self.rows,
                      tb=self.rng.randrange(2), **self.loose()) | fields
        return fec(self.check_columns[s], **fields)

    def buffers(self):
        return f"buffers {self.size} {self.size}"

    def start(self):
        return f"start {self.code} {self.size_code}"


def take_line(rng, section):
    return f"take {rng.choice((0, 2 ** 32 - 1, rng.randrange(2 ** 32)))} {section.hex().upper() or '-'}"


# ---- Bursts at random ----

def some_end(rng, rows):
    """An E: small, close to the end of a column, or close to that of the table."""
    table = COLUMNS * rows
    near = rng.choice((rng.randint(1, 20) * rows, table, rng.randint(1, COLUMNS) * rows))
    return min(table, max(20, rng.choice((rng.randint(20, 3000), near + rng.randint(-2, 2), near, table - rng.randrange(40)))))


def lawful_section(rng, frame):
    if frame.columns and rng.randrange(3) == 0:
        return frame.check_section(rng.randrange(min(frame.columns, rng.choice((4, 64)))))
    last = len(frame.datagrams) - 1
    return frame.datagram_section(rng.choice((last, *(rng.randint(0, last) for _ in range(5)))))


def of_another_frame(rng, frame, limit):
    """A section that reads well, whose place, end or bytes may be others."""
    if frame.columns and rng.randrange(3) == 0:
        p = min(190, max(0, frame.p + rng.choice((0, 0, 1, -1, rng.randint(-190, 190)))))
        s = rng.randrange(min(frame.columns, 6))
        column = bytearray(frame.check_columns[s])
        column[rng.choice((0, -1, rng.randrange(frame.rows)))] ^= rng.choice((0, 1, 0x80))
        return fec(bytes(column), p=p, s=s, last=63, address=s * frame.rows, **frame.loose())
    address, data = rng.choice(frame.datagrams)
    kind = rng.randrange(4)
    if kind == 0:                            # one byte of a datagram is another
        data = bytearray(data)
        data[rng.choice((-1, rng.randrange(6, len(data))))] ^= rng.choice((1, 0x80))
        data = bytes(data)
    elif kind == 1:                          # it stands elsewhere
        address = max(0, address + rng.choice((-1, 1, rng.randint(-300, 300))))
    elif kind == 2:                          # around the limit
        data = datagram(rng, rng.randint(20, 100))
        address = max(0, limit - rng.choice((len(data), len(data) + 1, len(data) - 1, 0, -1, rng.randrange(300))))
    return mpe(data, address=address % 2 ** 18, tb=int(rng.randrange(4) == 0), **frame.loose())


def damaged(rng, section):
    """Any bytes are others; often CRC_32 is right again, so that later rules are asked."""
    section = bytearray(section)
    for _ in range(rng.randint(1, 2)):
        section[rng.choice((0, 1, 2, 3, 5, 6, 7, 8, 10, 11, 12, 14, rng.randrange(len(section))))] ^= 1 << rng.randrange(8)
    if rng.randrange(4) == 0:
        section = section[:rng.randrange(len(section))] + rng.randbytes(rng.choice((0, 0, 9)))
    return sealed(section[:-4]) if rng.randrange(3) else bytes(section)


def refused_close(rng, frame):
    """A close that is lent a scratch row or names of a wrong size, or both."""
    wrong = rng.choice((0, 191, 254, 256)), frame.rows + rng.choice((-1, 1, 256, -256))
    return "close %d %d" % rng.choice((wrong, (wrong[0], frame.rows), (255, wrong[1])))


def random_put(rng, frame, first, most):
    return (f"put {rng.choice((0, 1, 2, 3, 4, 5, rng.randrange(256)))} {first} "
            f"{rng.randint(0, min(most, frame.size - first))}")


def flip(rng, section):
    """A section with one bit of its payload flipped, its heads aside; CRC_32 is right."""
    section = bytearray(section[:-4])
    section[rng.randrange(20, len(section))] ^= 1 << rng.randrange(8)
    return sealed(section)


def read_lines(rng, frame, most=400):
    """Read-outs of a closed burst: past its end, most often; of other buffers, too; and
    where other marks were put, at the front of datagrams and elsewhere."""
    enough = min(most, len(frame.datagrams) + 2)
    lines = [f"open {enough}", f"open {rng.choice((0, 1, 3))}"]
    if rng.randrange(4) == 0:
        lines += [f"buffers {frame.size - rng.randrange(2)} {frame.size + 1}", "open 2"]
        lines += [frame.buffers(), "open 1"] * rng.randrange(2)
        return lines
    for _ in range(rng.choice((0, 1, 1, 3))):
        address, data = rng.choice(frame.datagrams)
        for _ in range(rng.choice((1, 1, 10))):
            place = address + rng.choice((0, 0, 2, 3, 4, 5, rng.randrange(len(data))))
            lines.append(f"put {rng.choice((0, 1, 2, 2, 3, 4, rng.randrange(256)))} {place} 1")
        lines.append(f"open {rng.choice((3, enough))}")
    return lines


def lossy_burst(rng, codes=("rs", "rs", "rs", "bare"), size_codes=(0, 0, 0, 0, 1)):
    """Lines of a lawful frame of which sections are lost, often about as many as check
    columns come; of some that are forged; of its close, and of read-outs."""
    code, size_code = rng.choice(codes), rng.choice(size_codes)
    end = rng.choice((rng.randint(20, 600), rng.randint(20, 8000), rng.randint(20, 70 * ROWS[size_code])))
    frame = Frame(rng, code, size_code, sizes_for(rng, end, rng.choice((100, 1500, MOST))), lawful=True)
    lost = rng.choice((0, 0.02, 0.1, 0.3))
    enough = round(lost * end / frame.rows)
    count = rng.choice((0, 64, enough, enough + 1, enough + 2))
    sections = [frame.datagram_section(k) for k in range(len(frame.datagrams)) if rng.random() >= lost]
    sections += [frame.check_section(s) for s in rng.sample(range(frame.columns), min(frame.columns, count))]
    rng.shuffle(sections)
    for k in rng.sample(range(len(sections)), min(len(sections), rng.choice((0, 0, 1, 2)))):
        sections[k] = flip(rng, sections[k])
    puts = [random_put(rng, frame, rng.randrange(frame.size), rng.choice((1, 60, 3 * frame.rows)))
            for _ in range(rng.choice((0, 0, 0, 1, 5)))]
    closes = [refused_close(rng, frame)] * rng.choice((0, 0, 1)) + [f"close 255 {frame.rows}"]
    takes = (take_line(rng, section) for section in sections)
    return [frame.buffers(), frame.start(), *takes, *puts, *closes, *read_lines(rng, frame)]


def random_burst(rng, count, most=MOST, codes=("rs", "rs", "rs", "bare"), size_codes=(0, 0, 0, 0, 1, 2, 3)):
    """So many lines, nearly all of them sections that a burst is to take, and those of its
    close and of read-outs."""
    code, size_code = rng.choice(codes), rng.choice(size_codes)
    frame = Frame(rng, code, size_code, sizes_for(rng, some_end(rng, ROWS[size_code]), most))
    lines = [frame.buffers(), frame.start()]
    while len(lines) < count:
        kind = rng.randrange(100)
        if kind < 45:
            lines.append(take_line(rng, lawful_section(rng, frame)))
        elif kind < 75:
            limit = rng.choice((frame.end, (COLUMNS - frame.p) * frame.rows, COLUMNS * frame.rows))
            lines.append(take_line(rng, of_another_frame(rng, frame, limit)))
        elif kind < 88:
            lines.append(take_line(rng, damaged(rng, lawful_section(rng, frame))))
        elif kind < 96:
            lines.append(random_put(rng, frame, rng.choice((frame.end, rng.randrange(frame.size))) % frame.size, 60))
        elif kind < 97:
            lines += [refused_close(rng, frame), f"close 255 {frame.rows}", *read_lines(rng, frame, 30)]
            lines += [frame.buffers(), frame.start()]
        elif kind < 98:
            lines.append(f"start {rng.choice(('rs', 'bare', code))} {rng.choice((0, 1, size_code, rng.randrange(256)))}")
        else:
            lines.append(f"buffers {frame.size - rng.randrange(2)} {frame.size - rng.randrange(2)}")
            lines.append(take_line(rng, lawful_section(rng, frame)))
            lines.append(frame.buffers())
    return lines + [f"close 255 {frame.rows}", *read_lines(rng, frame, 30)]


def outcome(answer):
    """An answer without its place and the checksums."""
    words = answer.split(" ")
    return " ".join(words[:2]) if words[0] == "refused" else words[0]


def unended(program):
    """Those of the lines that end the program at its start which do not end it as they should: with an error that names
    the line, and nothing printed of it or of what follows."""
    for line, why in ENDING.items():
        ran = subprocess.run([program], input=f"buffers 0 0\n{line}\nstart rs 0\n", capture_output=True, text=True)
        if (ran.returncode, ran.stdout) != (1, "") or f"line 2: {why}" not in ran.stderr:
            yield f"{line}: status {ran.returncode}, printed {ran.stdout!r}, {ran.stderr!r}"


def main(program, seed=None, bursts=40):
    seed = random.SystemRandom().randrange(10 ** 9) if seed is None else int(seed)
    print(f"seed {seed}")
    rng = random.Random(seed)
    lines = [line for _ in range(int(bursts)) for line in random_burst(rng, 40)]
    lines += [line for _ in range(int(bursts) // 3) for line in lossy_burst(rng)]
    ran = subprocess.run([program], input="".join(line + "\n" for line in lines), stdout=subprocess.PIPE, text=True)
    got, want = ran.stdout.splitlines(), list(reference.answered(lines))
    different, counts = int(ran.returncode != 0), collections.Counter(outcome(answer) for _, answer in want)
    if ran.returncode:
        print(f"DIFFERENT: {program} ended with status {ran.returncode}")
    if len(got) != len(want):
        print(f"DIFFERENT: {len(want)} calls, {len(got)} answers")
        different += 1
    for printed, (number, due) in zip(got, want):
        if printed != due:
            different += 1
            if different < 10:
                print(f"DIFFERENT: line {number}\n  {lines[number - 1][:200]}\n  printed {printed}\n  due     {due}")
    for wrong in unended(program):
        different += 1
        print(f"DIFFERENT: {wrong}")
    print(f"{len(want)} calls and {len(ENDING)} ends compared, {different} differences")
    print("  " + ", ".join(f"{name}: {counts[name]}" for name in sorted(counts, key=lambda name: (len(name), name))))
    return 1 if different else 0


if __name__ == "__main__":
    sys.exit(main(*sys.argv[1:]))
