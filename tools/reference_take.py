#!/usr/bin/python3
"""Make the calls of a receiver that the lines of standard input ask for, and print what
each answers, with the CRC_32 of the cells and of the marks afterwards, and after a close
of the scratch row and of the names. Written from the rules alone, plain and slow, to be
held against another program. A line is

  buffers CELLS MARKS     buffers of so many bytes from now on, 0xAA and 0xC8 in them
  put MARK FROM COUNT     a byte into so many marks, from one on
  start CODE SIZE         CODE is `rs` or `bare`
  take ARRIVAL SECTION    the section in hex, `-` for no bytes
  close SCRATCH NAMES     a scratch row and names of so many bytes, 0xC9 and 0xAA in them
  open COUNT              a read-out of the closed burst, and COUNT times next

Lines that are empty or begin with # are passed over. A call is answered by `started`,
`taken`, `closed FILLED TORN OPEN WAKE`, `opened` or `refused NUMBER LAYER PLACE`, and
then the checksums; WAKE is a moment, `end` or `unknown`. A next is answered by
`datagram ADDRESS LENGTH` and the CRC_32 of the datagram, or by `end`. After a close that
is not refused no burst is open until the next start, and the closed one is there until
then."""
import sys
import zlib

sys.dont_write_bytecode = True
import reference_list as reference
import reference_rows as row_code

COLUMNS = 191                                # of the application table
CHECK_COLUMNS = {"rs": 64, "bare": 0}
ROWS = {0: 256, 1: 512, 2: 768, 3: 1024}     # by the size code
CELL, MARK = 0xAA, 0xC8                      # what new buffers hold
SCRATCH, NAME = 0xC9, 0xAA                   # what close is lent
NAMES = {row_code.FILLED: 1, row_code.TORN: 2, row_code.OPEN: 3}
UNKNOWN, RECEIVED, START, PADDING, FILLED = range(5)
MIRRORED = bytes(int(f"{byte:08b}"[::-1], 2) for byte in range(256))


def crc32_mirrored(data):
    """CRC_32 by zlib's, which is the same with the bits the other way round."""
    register = zlib.crc32(data.translate(MIRRORED)) ^ 0xFFFFFFFF
    return int(f"{register:032b}"[::-1], 2)


def is_known(mark):
    return mark in (RECEIVED, START, PADDING, FILLED)


class Section:
    """What a section says that refusals 4 to 11 let pass."""

    def __init__(self, section):
        self.delta_t, self.table_boundary, _, self.address = reference.timing(section)
        self.is_datagram = section[0] == 0x3E
        self.payload = section[12:-4]
        self.after = self.address + len(self.payload)
        self.end = self.after if self.is_datagram and self.table_boundary else None
        self.padding_columns = None if self.is_datagram else section[3]


class Burst:
    def __init__(self, code, size_code):
        self.code, self.check_columns, self.rows = code, CHECK_COLUMNS[code], ROWS[size_code]
        self.table = COLUMNS * self.rows     # cells of the application table
        self.end = self.padding_columns = None   # E and p, as far as told
        self.latest = None                   # arrival and delta_t of the section taken last

    def fits(self, cells, marks):
        size = (COLUMNS + self.check_columns) * self.rows
        return len(cells) == len(marks) == size

    def border(self, padding_columns):
        """Where the last columns begin that have nothing but padding."""
        return (COLUMNS - padding_columns) * self.rows

    def limit(self):
        if self.end is not None:
            return self.end
        return self.table if self.padding_columns is None else self.border(self.padding_columns)

    def told_end(self, section):
        """Where the section tells padding to begin; none if it tells nothing."""
        return section.end if section.is_datagram else self.border(section.padding_columns)

    def first_cell(self, section):
        return section.address if section.is_datagram else self.table + section.address

    def told_otherwise(self, section):
        """Whether E or p was told before, and is another or does not fit it."""
        for before, now in ((self.end, section.end), (self.padding_columns, section.padding_columns)):
            if before is not None and now is not None and before != now:
                return True
        for end, columns in ((self.end, section.padding_columns), (section.end, self.padding_columns)):
            if end is not None and columns is not None:
                if not self.border(columns + 1) < end <= self.border(columns):
                    return True
        return False

    def refusal(self, data, cells, marks):
        """(number, place) of the first rule by which take refuses, else None."""
        if not self.fits(cells, marks):
            return 2, 0
        no = reference.refusal(data, self.rows, self.check_columns)
        if no:
            return no
        section = Section(data)
        if section.is_datagram and section.after > self.limit():
            return 12, max(section.address, self.limit())
        first = self.first_cell(section)
        for k, byte in enumerate(section.payload):
            if is_known(marks[first + k]) and cells[first + k] != byte:
                return 13, section.address + k
        end = self.told_end(section)
        if end is not None:
            behind = marks[end:self.table]
            if self.told_otherwise(section) or RECEIVED in behind or START in behind:
                return 13, end
        return None

    def take(self, data, arrival, cells, marks):
        """Take a section; or (number, place) of its refusal, and nothing is done."""
        no = self.refusal(data, cells, marks)
        if no:
            return no
        section = Section(data)
        first = self.first_cell(section)
        for k, byte in enumerate(section.payload):
            cells[first + k] = byte
            if marks[first + k] != START:
                marks[first + k] = RECEIVED
        if section.is_datagram:
            marks[first] = START
        end = self.told_end(section)
        if end is not None:
            cells[end:self.table] = bytes(self.table - end)
            marks[end:self.table] = bytes([PADDING]) * (self.table - end)
        if section.end is not None:
            self.end = section.end
        if section.padding_columns is not None:
            self.padding_columns = section.padding_columns
        self.latest = arrival, section.delta_t
        return None

    def wake(self):
        """When the radio is needed again, as it is printed."""
        if self.latest is None:
            return "unknown"
        arrival, delta_t = self.latest
        return str(arrival + 10 * delta_t) if delta_t else "end"

    def close(self, cells, marks, scratch, names):
        """Mend all rows; or (number, place) of the refusal, and nothing is done."""
        if not self.fits(cells, marks):
            return 2, 0
        if len(scratch) != 255 or len(names) != self.rows:
            return 3, 0
        columns = [bytes(cells[i:i + self.rows]) for i in range(0, len(cells), self.rows)]
        known = bytes(map(is_known, marks))
        missing = [[i for i, each in enumerate(known[r::self.rows]) if not each] for r in range(self.rows)]
        answers, columns = row_code.mended_all(self.code, columns, missing)
        for r, answer in enumerate(answers):
            names[r] = NAMES[answer]
            if answer == row_code.TORN:
                marks[r::self.rows] = bytes(len(columns))
            elif answer == row_code.FILLED:
                for i in missing[r]:
                    cells[i * self.rows + r], marks[i * self.rows + r] = columns[i][r], FILLED
        scratch[:] = bytes(255)
        return None


class ReadOut:
    """Datagrams of a closed burst, one after another."""

    def __init__(self, limit, cells, marks):
        self.limit, self.cells, self.marks = limit, cells, marks
        self.place = 0

    def byte(self, address):
        """The byte there; none if it is unknown or not below the limit."""
        return self.cells[address] if address < self.limit and is_known(self.marks[address]) else None

    def told_length(self):
        """How long the datagram at the place says it is; none if it tells no length, or
        one that no datagram has or that passes the limit."""
        first = self.byte(self.place)
        if first is None or first >> 4 not in (4, 6):
            return None
        at, heads = (2, 0) if first >> 4 == 4 else (4, 40)
        high, low = self.byte(self.place + at), self.byte(self.place + at + 1)
        if high is None or low is None:
            return None
        length = heads + high * 256 + low
        return length if 20 <= length <= 4080 and self.place + length <= self.limit else None

    def next(self):
        """(address, datagram), or none at the end."""
        while self.place < self.limit:
            address, length = self.place, self.told_length()
            if length is None:
                start = self.marks.find(START, address + 1, self.limit)
                self.place = self.limit if start < 0 else start
                continue
            self.place = address + length
            if all(map(is_known, self.marks[address:self.place])):
                return address, bytes(self.cells[address:self.place])
        return None


class Receiver:
    """The buffers that are lent now, the burst that is open, and the one that was closed."""

    def __init__(self):
        self.cells, self.marks, self.burst, self.closed = bytearray(), bytearray(), None, None

    def start(self, code, size_code):
        if size_code not in ROWS:
            return 1, 0
        burst = Burst(code, size_code)
        if not burst.fits(self.cells, self.marks):
            return 2, 0
        self.marks[:] = bytes(len(self.marks))   # every mark is 0 now
        self.burst, self.closed = burst, None
        return None

    def close(self, scratch, names):
        """The line to print for a close."""
        lent = bytearray([SCRATCH] * scratch), bytearray([NAME] * names)
        no, wake = self.burst.close(self.cells, self.marks, *lent), self.burst.wake()
        if not no:
            self.burst, self.closed = None, self.burst
        return self.report("closed %d %d %d %s" % (*map(lent[1].count, (1, 2, 3)), wake), no, *lent)

    def read_out(self):
        """A read-out of the closed burst; none where that is refused."""
        if not self.closed.fits(self.cells, self.marks):
            return None
        return ReadOut(self.closed.limit(), self.cells, self.marks)

    def open(self, count):
        """The lines to print for an open, and for so many calls of next."""
        read_out = self.read_out()
        if not read_out:
            return [self.report("opened", (2, 0))]
        return [self.report("opened", None), *(told(read_out.next()) for _ in range(count))]

    def report(self, done, no, *lent):
        if no:
            number, place = no
            layer = "call" if number < 4 else "table" if number > 11 else "section"
            done = f"refused {number} {layer} {place}"
        return " ".join([done, *("%08X" % crc32_mirrored(buffer) for buffer in (self.cells, self.marks, *lent))])

    def answer(self, line):
        """The lines to print for a line that was read: one for each call."""
        if line == "" or line.startswith("#"):
            return []
        call, *words = line.split(" ")
        if call == "buffers":
            cells, marks = map(int, words)
            self.cells, self.marks = bytearray([CELL] * cells), bytearray([MARK] * marks)
            return []
        if call == "put":
            mark, first, count = map(int, words)
            assert first + count <= len(self.marks), line
            self.marks[first:first + count] = bytes([mark]) * count
            return []
        if call == "start":
            code, size_code = words
            return [self.report("started", self.start(code, int(size_code)))]
        if call == "open":
            assert self.closed, line
            return self.open(*map(int, words))
        assert self.burst, line
        if call == "close":
            return [self.close(*map(int, words))]
        assert call == "take", line
        arrival, section = words
        assert int(arrival) < 1 << 32, line
        data = bytes.fromhex("" if section == "-" else section)
        return [self.report("taken", self.burst.take(data, int(arrival), self.cells, self.marks))]


def told(datagram):
    """The line to print for what next answered."""
    if datagram is None:
        return "end"
    address, data = datagram
    return "datagram %d %d %08X" % (address, len(data), crc32_mirrored(data))


def answered(lines):
    """(number of the line, answer) for each call that the lines ask for."""
    receiver = Receiver()
    for number, line in enumerate(lines, 1):
        for answer in receiver.answer(line):
            yield number, answer


def answers(text):
    """The whole output for a whole input."""
    return "".join(answer + "\n" for _, answer in answered(text.splitlines()))


assert crc32_mirrored(b"123456789") == 0x0376E6E7

if __name__ == "__main__":
    sys.stdout.write(answers(sys.stdin.read()))
