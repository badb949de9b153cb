"""What `linkdemo` must tell of its bursts: the check bytes by libfec, the sections by
the second writer, and what becomes of them, and of bursts that are closed and read out,
by the second receiver. For the script that makes the stored files of rows; it stands on
no line of the code."""
import sys

sys.dont_write_bytecode = True
import reference_take as take
import reference_write as write

ROWS, PADDING_COLUMNS = 256, 188
SIZES = [200, 312, 88]                       # of the datagrams, from address 0 on
TEXTS = {9: "the checksum is wrong", 12: "the datagram passes the limit of its table",
         13: "the section contradicts what is known"}


def datagram(size, letter):
    return bytes([0x45, letter, *size.to_bytes(2, "big")]) + bytes([letter]) * (size - 4)


def frame(libfec):
    """All cells of the frame, column after column."""
    laid = b"".join(datagram(size, letter) for size, letter in zip(SIZES, b"ABC"))
    table = laid + bytes(take.COLUMNS * ROWS - len(laid))
    rows = [libfec.spread(table[r::ROWS]) for r in range(ROWS)]
    return bytes(byte for column in zip(*rows) for byte in column)


class Demonstration:
    def __init__(self, libfec):
        self.sent, self.receiver = frame(libfec), take.Receiver()
        self.receiver.answer(f"buffers {len(self.sent)} {len(self.sent)}")
        ends = [sum(SIZES[:k]) for k in range(len(SIZES) + 1)]
        self.datagrams = [(first, self.sent[first:end]) for first, end in zip(ends, ends[1:])]
        self.lines = []

    def mpe(self, address, size, last, payload=None):
        payload = payload or self.sent[address:address + size]
        return write.mpe(payload, mac6=0, mac5=1, address=address, tb=int(last))

    def fec(self, number, padding_columns):
        first = (take.COLUMNS + number) * ROWS
        return write.fec(self.sent[first:first + ROWS], p=padding_columns, s=number)

    def send(self, what, section, arrival=0):
        [answer] = self.receiver.answer(f"take {arrival} {section.hex()}")
        answer = answer.split(" ")[:-2]
        if answer == ["taken"] and section[0] == 0x3E:
            self.lost.discard(int.from_bytes(section[8:12], "big") & 0x3FFFF)
        if answer[0] == "refused":
            answer[-1] += ": " + TEXTS[int(answer[1])]
        self.lines.append(f"   {what:44} {' '.join(answer)}")

    def tell(self):
        marks = self.receiver.marks
        self.lines.append("   cells %d, known %d, of these received %d, starts %d" % (
            len(marks), sum(map(take.is_known, marks)), sum(map(marks.count, (take.RECEIVED, take.START))), marks.count(take.START)))

    def tell_right(self):
        known = map(take.is_known, self.receiver.marks)
        assert all(cell == byte for cell, byte, is_known in zip(self.receiver.cells, self.sent, known) if is_known)
        self.lines.append("   Each known cell holds the byte that was sent.")

    def start(self):
        self.receiver.answer("start rs 0")
        self.lost = {address for address, _ in self.datagrams}

    def close(self):
        """Close the burst, and tell its tallies; the names of its rows."""
        names, scratch = bytearray(ROWS), bytearray(255)
        burst = self.receiver.burst
        refusal = burst.close(self.receiver.cells, self.receiver.marks, scratch, names)
        assert not refusal
        self.receiver.burst, self.receiver.closed = None, burst
        self.lines.append("   rows filled %d, torn %d, open %d" % tuple(map(names.count, (1, 2, 3))))
        return names

    def tell_read_out(self):
        """All that comes out, each datagram as it was sent; the addresses."""
        read_out, addresses = self.receiver.read_out(), []
        for address, data in iter(read_out.next, None):
            assert (address, data) in self.datagrams
            how = "by repair alone" if address in self.lost else "from its section"
            front = data[:8].hex(" ").upper()
            self.lines.append(f"   datagram at {address:3}, {len(data):3} bytes: {front} ..  {how}")
            addresses.append(address)
        behind = read_out.next()
        assert behind is None
        self.lines.append("   end, and end again")
        return addresses

    def told_of_close(self):
        """A burst with a loss and a forgery, closed and read out."""
        self.lines += ["", "10. Another burst of the frame starts. The datagram at 200 is lost, and a forged one comes in:"]
        self.start()
        self.send("datagram at 0", self.mpe(0, 200, False), 10000)
        self.send("datagram at 356, which nobody sent", self.mpe(356, 20, False, datagram(20, ord("X"))), 10000)
        self.send("datagram at 512, the last one", self.mpe(512, 88, True), 10000)
        self.send("check column 0", self.fec(0, PADDING_COLUMNS), 10000)
        self.tell()
        self.lines += ["", "11. The burst is closed:"]
        names = self.close()
        torn, left_open = ([r for r in range(ROWS) if names[r] == name] for name in (2, 3))
        assert torn == list(range(torn[0], torn[-1] + 1)) and left_open == list(range(left_open[0], left_open[-1] + 1))
        moment = int(self.receiver.closed.wake())
        self.lines += [f"   Rows {torn[0]} to {torn[-1]} are torn: they fit no codeword."
                       f" Rows {left_open[0]} to {left_open[-1]} are open: they fit many.",
                       f"   The wake order is set on the alarm: at {moment} ms,"
                       f" {moment - 10000} after the last section came in."]
        self.tell()
        self.tell_right()
        self.lines += ["", "12. A read-out of it is opened, and next is called:"]
        addresses = self.tell_read_out()
        assert addresses == [512]
        rows = {address: {cell % ROWS for cell in range(address, address + len(data))} for address, data in self.datagrams}
        assert rows[0] & set(torn) and not rows[0] & set(left_open) and rows[200] & set(left_open)
        self.lines.append("   That at 0 has bytes in torn rows, and that at 200 in open ones: they stay out.")

    def told_of_repair(self):
        """A burst with a loss that is made good."""
        self.lines += ["", "13. A third burst of the frame starts. The datagram at 200 is lost again; more check columns come in:"]
        self.start()
        self.send("check column 1", self.fec(1, PADDING_COLUMNS), 10000)
        self.send("datagram at 512, the last one", self.mpe(512, 88, True), 10000)
        self.send("check column 0", self.fec(0, PADDING_COLUMNS), 10000)
        self.send("datagram at 0", self.mpe(0, 200, False), 10000)
        self.lines.append("   The burst is closed:")
        self.close()
        self.tell()
        self.lines += ["", "14. A read-out of that one is opened:"]
        addresses = self.tell_read_out()
        assert addresses == [address for address, _ in self.datagrams]
        self.lines.append("   All datagrams of the frame have come out, each byte as it was sent.")

    def told(self):
        end = sum(SIZES)
        burst = take.Burst("rs", 0)
        assert burst.border(PADDING_COLUMNS + 1) < end <= burst.border(PADDING_COLUMNS)
        self.lines += ["5. A frame of 256 rows is made. Datagrams of 200, 312 and 88 bytes lie end to end, so E is",
                       f"   {end}, and {PADDING_COLUMNS} columns hold padding only. Each row is spread in the scratch row:",
                       "   all rows are codewords now; the scratch row is zero after each", "",
                       "6. A burst starts with size code 0:"]
        self.start()
        self.tell()
        self.lines += ["", "7. Its sections come in, out of order:"]
        self.send("datagram at 512, the last one", self.mpe(512, 88, True))
        self.send("the same again", self.mpe(512, 88, True))
        self.send("check column 0", self.fec(0, PADDING_COLUMNS))
        self.send("datagram at 0", self.mpe(0, 200, False))
        self.tell()
        self.lines += ["", "8. Others come in, all but the first with a right checksum:"]
        damaged = bytearray(self.mpe(200, 312, False))
        damaged[40] ^= 1
        self.send("datagram at 200, a bit flipped", damaged)
        other = datagram(200, ord("X"))
        self.send("datagram at 500 that passes the end", self.mpe(500, 200, False, other))
        self.send("datagram at 100 over known bytes", self.mpe(100, 200, False, other))
        self.send("datagram at 200, told to be the last", self.mpe(200, 312, True))
        self.send("check column 1, with one padding column less", self.fec(1, PADDING_COLUMNS - 1))
        self.tell()
        self.lines += ["", "9. The datagram that is missing comes in at last:"]
        self.send("datagram at 200", self.mpe(200, 312, False))
        self.tell()
        self.tell_right()
        self.told_of_close()
        self.told_of_repair()
        return self.lines


def burst(libfec):
    """The lines of the demonstration from its fifth step on."""
    return Demonstration(libfec).told()
