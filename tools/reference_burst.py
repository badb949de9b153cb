#!/usr/bin/python3
"""List the datagrams of a burst, whose sections are laid back to back on standard input,
and how many sections were taken and refused, and how many rows are filled, torn and open.
The second receiver takes the sections, closes the burst and hands the datagrams out; the
input is cut as in the second listing. Frames of 256 rows, RS(255,191), each arrival 0."""
import sys

sys.dont_write_bytecode = True
import reference_list as reference
import reference_take as take

SIZE = (take.COLUMNS + take.CHECK_COLUMNS["rs"]) * reference.R


def listing(stream):
    """The whole listing of a burst, as text."""
    receiver = take.Receiver()
    receiver.cells, receiver.marks = bytearray(SIZE), bytearray(SIZE)
    refusal = receiver.start("rs", 0)
    assert not refusal
    burst = receiver.burst
    pieces = [piece for _, piece in reference.cut(stream)]
    refused = [no for no in (burst.take(piece, 0, receiver.cells, receiver.marks) for piece in pieces) if no]
    names, scratch = bytearray(reference.R), bytearray(255)
    refusal = burst.close(receiver.cells, receiver.marks, scratch, names)
    assert not refusal
    receiver.burst, receiver.closed = None, burst
    lines = [f"{address:7d}{len(data):5d}" for address, data in iter(receiver.read_out().next, None)]
    counts = len(pieces) - len(refused), len(refused), *map(names.count, (1, 2, 3))
    return "\n".join([*lines, "%6d%6d%6d%6d%6d" % counts]) + "\n"


if __name__ == "__main__":
    sys.stdout.write(listing(sys.stdin.buffer.read()))
