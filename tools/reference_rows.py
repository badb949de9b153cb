#!/usr/bin/python3
"""Rows of the two row codes, for the scripts that hold `rowmend` against others:
the lines of that program, the syndromes of a row of RS(255,191) by their
definition, rows mended by that alone, and what is to come of a row by libfec
(through ctypes), which others wrote. A line is

  CODE mend ROW       CODE is `rs` or `bare`
  CODE spread ROW

ROW is in hex, `..` for a byte that is not known, `-` for no bytes. The answer is
a word and the row afterwards.

reference_rows.py LINES ANSWERS: hold answers against their lines by the definition
alone, without libfec; without the two files, the row that `linkdemo` shows, on
standard input. Ends with status 1 where something is wrong."""
import ctypes
import ctypes.util
import sys

GIVEN, CHECK_BYTES, ROW = 191, 64, 255
FILLED, TORN, OPEN, SPREAD, MISFIT = "1", "2", "3", "spread", "misfit"
FILLER = 0xAA                   # what rowmend puts for a byte that is not known
WIDTHS = {"rs": ROW, "bare": GIVEN}


# ---- Lines: a row is a list of bytes, None for one that is not known ----

def word(row):
    return "".join(".." if byte is None else "%02X" % byte for byte in row) or "-"


def row_of(text):
    cells = [] if text == "-" else [text[i:i + 2] for i in range(0, len(text), 2)]
    return [None if cell == ".." else int(cell, 16) for cell in cells]


def stands(row):
    """The row as the program holds it before the call."""
    return [FILLER if byte is None else byte for byte in row]


# ---- The code by its definition, bit by bit ----

def times(a, b):
    """The product of two elements of the field."""
    product = 0
    for bit in range(8):
        if b >> bit & 1:
            product ^= a << bit
    for bit in range(14, 7, -1):
        if product >> bit & 1:
            product ^= 0x11D << bit - 8
    return product


_power = [1]                    # g^0 to g^255, which is 1 again
for _ in range(255):
    _power.append(times(_power[-1], 2))
assert _power[255] == 1 and len(set(_power)) == 255
_times_power = [[times(power, byte) for byte in range(256)] for power in _power[:255]]


def syndrome(row, j):
    """The j-th of a row: the field sum, over i from 0 to 254, of b_i * g^(j * (254 - i))."""
    total = 0
    for i, byte in enumerate(row):
        total ^= _times_power[j * (254 - i) % 255][byte]
    return total


def is_codeword(row):
    return len(row) == ROW and not any(syndrome(row, j) for j in range(CHECK_BYTES))


def completions(row):
    """The rows that a row with one missing byte may come from; itself, if none is."""
    if None not in row:
        return [row]
    place = row.index(None)
    return (row[:place] + [byte] + row[place + 1:] for byte in range(256))


# ---- Rows mended by the definition: many at once, given by their columns ----

TIMES = [bytes(times(a, byte) for byte in range(256)) for a in range(256)]
INVERSE = [None] + [TIMES[a].index(1) for a in range(1, 256)]


def added(a, b):
    """The field sums of two byte strings."""
    return (int.from_bytes(a, "big") ^ int.from_bytes(b, "big")).to_bytes(len(a), "big")


def syndromes(columns):
    """The 64 syndromes of each row, by Horner's rule; those of one kind together."""
    sums = []
    for power in _power[:CHECK_BYTES]:
        total = bytes(len(columns[0]))
        for column in columns:
            total = added(total.translate(TIMES[power]), column)
        sums.append(total)
    return sums


def solved(places, sums):
    """Rows miss the bytes at these places, and have these syndromes with zeros there.
    The equations that the missing bytes must meet are solved by Gauss's rule: (whether
    some bytes can be any, the values of the others, and for each row whether, as a byte
    that is not 0, an equation is left that no values meet)."""
    lines = [bytes(_power[j * (254 - i) % 255] for i in places) + each for j, each in enumerate(sums)]
    rank = 0
    for k, _ in enumerate(places):
        found = next((n for n in range(rank, len(lines)) if lines[n][k]), None)
        if found is None:
            continue
        lines[rank], lines[found] = lines[found], lines[rank]
        lines[rank] = lines[rank].translate(TIMES[INVERSE[lines[rank][k]]])
        for n, line in enumerate(lines):
            if n != rank and line[k]:
                lines[n] = added(line, lines[rank].translate(TIMES[line[k]]))
        rank += 1
    values = [line[len(places):] for line in lines]
    wrong = bytes(map(any, zip(*values[rank:]))) if values[rank:] else None
    return rank < len(places), values[:rank], wrong


def mended_all(code, columns, missing):
    """(answers, columns afterwards) of rows given by their columns; missing has for each
    row the places of the bytes that are not known. Rows that miss the same are solved
    together: how many codewords agree with one depends on its equations alone."""
    after, answers = [bytearray(column) for column in columns], [None] * len(missing)
    zeroed = [bytearray(column) for column in columns]
    same = {}
    for r, places in enumerate(missing):
        same.setdefault(tuple(places), []).append(r)
        for i in places:
            zeroed[i][r] = 0
    sums = syndromes(zeroed) if code == "rs" else []
    for places, rows in same.items():
        several, values, wrong = solved(places, [bytes(each[r] for r in rows) for each in sums])
        for n, r in enumerate(rows):
            answers[r] = TORN if wrong and wrong[n] else OPEN if several else FILLED
            if answers[r] == FILLED:
                for i, value in zip(places, values):
                    after[i][r] = value[n]
    return answers, [bytes(column) for column in after]


def is_to_mend(line):
    """Whether a line asks to mend a row that is no misfit."""
    code, call, text = line.split(" ")
    return call == "mend" and len(row_of(text)) == WIDTHS[code]


def mended_lines(lines):
    """The answers to those lines that are to mend."""
    found = {}
    for code in WIDTHS:
        asked = [line for line in lines if is_to_mend(line) and line.split(" ")[0] == code]
        rows = [row_of(line.split(" ")[2]) for line in asked]
        missing = [[i for i, byte in enumerate(row) if byte is None] for row in rows]
        answers, columns = mended_all(code, [bytes(column) for column in zip(*map(stands, rows))], missing)
        found.update((line, f"{answer} {word(row)}") for line, answer, row in zip(asked, answers, zip(*columns)))
    return [found[line] for line in lines if line in found]


def spread_all(columns):
    """The 64 check columns behind 191 columns."""
    missing = [range(GIVEN, ROW)] * len(columns[0])
    return mended_all("rs", columns + [bytes(len(missing))] * CHECK_BYTES, missing)[1][GIVEN:]


def contradiction(line, answer):
    """What is wrong in an answer, by the definition alone; none if nothing is. Whether
    a row is rightly torn is only seen where none of its bytes is missing, or one."""
    code, call, text = line.split(" ")
    said, after = answer.split(" ")
    row, after = row_of(text), row_of(after)
    missing = row.count(None)
    if (said == MISFIT) != (len(row) != WIDTHS[code]):
        return "misfit or not"
    if said in (MISFIT, TORN, OPEN):
        if after != stands(row):
            return "the row is not as it was"
    elif code == "rs" and not is_codeword(after):
        return "no codeword"
    if said == MISFIT:
        return None
    if call == "spread":
        given = len(row) if code == "bare" else GIVEN
        return None if said == SPREAD and after[:given] == row[:given] else "not spread"
    if code == "bare":
        right = said == (OPEN if missing else FILLED)
    else:
        right = said == OPEN if missing > CHECK_BYTES else said in (FILLED, TORN)
    if not right:
        return "another answer is due"
    if said == TORN and missing < 2 and any(is_codeword(each) for each in completions(row)):
        return "torn, and yet a codeword agrees"
    if said == FILLED and any(byte not in (None, cell) for byte, cell in zip(row, after)):
        return "filled, and a known byte is another"
    return None


def contradictions(lines, answers):
    """(line number, what is wrong) of each answer with which something is."""
    wrong = [(number, contradiction(*pair)) for number, pair in enumerate(zip(lines, answers), 1)]
    if len(lines) != len(answers):
        wrong.append((min(len(lines), len(answers)) + 1, "a line has no answer, or an answer no line"))
    return [(number, what) for number, what in wrong if what]


# ---- The code by libfec ----

def have_libfec():
    return ctypes.util.find_library("fec") is not None


class Libfec:
    """RS(255,191) as libfec has it: 8 bits, 0x11D, roots from g^0 on, 64 of them."""

    def __init__(self, first_root=0):
        self.library = ctypes.CDLL(ctypes.util.find_library("fec"))
        self.library.init_rs_char.restype = ctypes.c_void_p
        self.code = ctypes.c_void_p(self.library.init_rs_char(8, 0x11D, first_root, 1, CHECK_BYTES, 0))
        assert self.code

    def spread(self, given):
        """The codeword that 191 bytes begin."""
        check_bytes = ctypes.create_string_buffer(CHECK_BYTES)
        self.library.encode_rs_char(self.code, bytes(given), check_bytes)
        return list(given) + list(check_bytes.raw)

    def decoded(self, row, missing):
        """What the decoder makes of a row with up to 64 missing bytes, at these places;
        none where it gives up."""
        data = ctypes.create_string_buffer(bytes(byte or 0 for byte in row), ROW)
        places = (ctypes.c_int * CHECK_BYTES)(*missing)
        if self.library.decode_rs_char(self.code, data, places, len(missing)) < 0:
            return None
        return list(data.raw)

    def mended(self, row):
        """(answer, row afterwards) of a row of 255 bytes. Its decoder looks for wrong
        bytes too, so a row is filled only where it leaves the known ones."""
        missing = [i for i, byte in enumerate(row) if byte is None]
        if len(missing) > CHECK_BYTES:
            return OPEN, stands(row)
        found = self.decoded(row, missing)
        filled = found is not None and agrees(row, found)
        # The same by another way. With 64 bytes missing there is always one word: so
        # some known ones are taken away, and must come out again as they were.
        taken = missing + [i for i, byte in enumerate(row) if byte is not None][:CHECK_BYTES - len(missing)]
        again = self.decoded([0 if i in taken else byte for i, byte in enumerate(row)], taken)
        assert agrees(row, again) == filled and (not filled or again == found), word(row)
        return (FILLED, found) if filled else (TORN, stands(row))

    def answer(self, line):
        """The line to print for a line that was read."""
        code, call, text = line.split(" ")
        row = row_of(text)
        if len(row) != WIDTHS[code]:
            said, after = MISFIT, stands(row)
        elif call == "spread":
            said, after = SPREAD, self.spread(row[:GIVEN]) if code == "rs" else row
        elif code == "rs":
            said, after = self.mended(row)
        else:
            said, after = OPEN if None in row else FILLED, stands(row)
        return said + " " + word(after)


def agrees(row, found):
    return all(byte in (None, cell) for byte, cell in zip(row, found))


def shown(text):
    """The row whose text and check bytes linkdemo shows in its first step."""
    lines = text.splitlines()
    given, check_bytes = lines[1].strip()[1:-1].encode(), bytes.fromhex("".join(lines[3:7]))
    return list((given * GIVEN)[:GIVEN] + check_bytes)


def main(lines=None, answers=None):
    if lines is None:
        bad = not is_codeword(shown(sys.stdin.read()))
        if bad:
            print("that is no codeword")
        return bad
    with open(lines) as file:
        given = file.read().splitlines()
    with open(answers) as file:
        got = file.read().splitlines()
    wrong = contradictions(given, got)
    for number, what in wrong:
        print(f"line {number}: {what}")
    return bool(wrong)


if __name__ == "__main__":
    sys.exit(main(*sys.argv[1:]))
