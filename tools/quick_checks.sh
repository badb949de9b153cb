#!/bin/bash
# The checks of the stored test files that need no package and take seconds:
# the files are there, the reference listing gives the stored listing, the
# section vectors and the sections to write are right, the stored rows are right by
# the definition of their code, and mended by it, the stored bursts are made anew and
# answered by the second receiver as is stored, each must-fail edit stands once in its
# source, README shows the listing of the sample and what linkdemo prints, it and
# docs/TESTING.md tell how much is stored. One line for each check; status 1 if one
# fails.
# The CRC is crcmod's where it is installed, else a bitwise function's.
set -u
cd "$(dirname "${BASH_SOURCE[0]}")/.." || exit 1
python=/usr/bin/python3
[ -x "$python" ] || python=python3
status=0
result() {      # result STATUS WORDS
    if [ "$1" = 0 ]; then echo "ok: $2"; else echo "FAILED: $2"; status=1; fi
}

for name in samples/burst.bin crates/sectionlist/stdin crates/sectionlist/stdout \
            crates/section_vectors/stdin crates/section_vectors/stdout \
            crates/sectionwrite/stdin crates/sectionwrite/stdout \
            crates/rowmend/stdin crates/rowmend/stdout crates/linkdemo/stdout \
            crates/bursttake/stdin crates/bursttake/stdout \
            crates/burstlist/stdin crates/burstlist/stdout; do
    test -s "$name"
    result $? "$name is there and not empty"
done

"$python" tools/reference_list.py < crates/sectionlist/stdin | cmp - crates/sectionlist/stdout
result $? "the reference lists crates/sectionlist/stdin as crates/sectionlist/stdout"

test "$("$python" tools/reference_list.py < samples/burst.bin | tail -n 1)" \
    = "sections 18 datagram 12 check 4 refused 2"
result $? "samples/burst.bin has 12 datagram sections, 4 check columns, 2 damaged"

new=$(mktemp -d) || exit 1
trap 'rm -rf "$new"' EXIT
"$python" tools/make_take_vectors.py "$new" && cmp "$new/crates/bursttake/stdin" crates/bursttake/stdin \
    && cmp "$new/crates/bursttake/stdout" crates/bursttake/stdout
result $? "made anew, each case as it was made to be, crates/bursttake/stdin and stdout are the same"
"$python" tools/make_burst_vectors.py "$new" && cmp "$new/crates/burstlist/stdin" crates/burstlist/stdin \
    && cmp "$new/crates/burstlist/stdout" crates/burstlist/stdout
result $? "made anew, as it was made to be, crates/burstlist/stdin and stdout are the same"

"$python" - <<'EOF'
import collections
import glob
import os
import sys
sys.dont_write_bytecode = True
sys.path.insert(0, "tools")
import reference_burst as bursts
import reference_list as reference
import reference_rows as rows
import reference_write as writer
bad = 0

def result(good, words):
    global bad
    bad |= not good
    print("ok:" if good else "FAILED:", words, flush=True)

def lines(name):
    with open(name) as file:
        return file.read().split("\n")[:-1]

vectors = lines("crates/section_vectors/stdout")
given = lines("crates/section_vectors/stdin")
result([row.split(" ")[0] for row in vectors] == given,
       f"crates/section_vectors, {len(vectors)} lines in and out")
described = lines("crates/sectionwrite/stdin")
written = lines("crates/sectionwrite/stdout")
result(len(described) == len(written), f"crates/sectionwrite, {len(written)} lines in and out")
for crc, by in {reference.crc32: reference.CRC_BY,
                reference.crc32_bitwise: "the bitwise function"}.items():
    reference.crc32 = crc
    good = crc(b"123456789") == 0x0376E6E7
    for text, want, number, place in (row.split(" ") for row in vectors):
        data = bytes.fromhex("" if text == "-" else text)
        good &= crc(data) == int(want, 16)
        good &= (reference.refusal(data) or (0, 0)) == (int(number), int(place))
    result(good, f"the CRC_32 and refusals of the vectors, by {by}")
    result([writer.answer(row) for row in described] == written,
           f"the reference writes crates/sectionwrite/stdin as crates/sectionwrite/stdout, CRC_32 by {by}")

asked = lines("crates/rowmend/stdin")
mended = lines("crates/rowmend/stdout")
result(len(asked) == len(mended), f"crates/rowmend, {len(mended)} lines in and out")
wrong = rows.contradictions(asked, mended)
result(not wrong, "by the definition of the code the stored rows are right, torn ones as they were"
       + "".join(f"; line {number}: {what}" for number, what in wrong))
result(rows.mended_lines(asked) == [answer for line, answer in zip(asked, mended) if rows.is_to_mend(line)],
       "solving the equations that define the code gives each stored row that was mended")
missing = collections.Counter(line.count("..") for line, answer in zip(asked, mended)
                              if line.startswith("rs mend") and answer[0] in rows.FILLED + rows.TORN)
result(all(missing[count] > 1 for count in range(rows.CHECK_BYTES + 1)),
       f"rows with each count of missing bytes from 0 to {rows.CHECK_BYTES} are among them")

with open("crates/linkdemo/stdout") as file:
    result(rows.is_codeword(rows.shown(file.read())), "the check bytes in crates/linkdemo/stdout make its text a codeword")

def edits():
    """(name, whether each old text stands just once in its file) for each must-fail edit."""
    for name in sorted(glob.glob("crates/*/must-fail/*.edit")):
        file, *rows = (row.split(": ", 1) for row in lines(name))
        pairs = list(zip(rows[::2], rows[1::2]))
        with open(os.path.join(name.split("/must-fail/")[0], file[1])) as source:
            text = source.read()
        yield name, file[0] == "file" and 0 < len(rows) == 2 * len(pairs) and all(
            old[0] == "old" and new[0] == "new" and text.count(old[1]) == 1 and old[1] != new[1]
            for old, new in pairs)

unfit = [name for name, fits in edits() if not fits]
result(not unfit, "each must-fail edit fits its source" + "".join(" " + name for name in unfit))

with open("samples/burst.bin", "rb") as file:
    shown = "".join("    " + row + "\n" for row in reference.listing(file.read()).splitlines())
with open("README.md") as file:
    readme = file.read()
result(shown in readme, "README shows the listing of samples/burst.bin")
with open("samples/burst.bin", "rb") as file:
    shown = "".join("    " + row + "\n" for row in bursts.listing(file.read()).splitlines())
result(shown in readme, "README shows the datagrams of samples/burst.bin")
with open("crates/linkdemo/stdout") as file:
    told = "".join("    " + line if line.strip() else line for line in file)
result(told in readme, "README shows what linkdemo prints")
listed = lines("crates/sectionlist/stdout")[-1].split(" ")[1]
told = [f"{listed} ordinary and hostile", f"{len(written)} lines", f"{len(mended)} rows", f"{len(vectors)} stored byte strings"]
on_one_line = " ".join(readme.split())
result(all(f" {words}" in on_one_line for words in told), "README tells how many stored: " + ", ".join(told))
with open("docs/TESTING.md") as file:
    testing = file.read()
answers = collections.Counter(answer.split(" ")[0] for answer in mended)
kinds = ", ".join(f"{answers[said]} {kind}" for said, kind in (
    (rows.FILLED, "filled"), (rows.TORN, "torn"), (rows.OPEN, "open"), (rows.SPREAD, "spread"), (rows.MISFIT, "misfit")))
told = f"| {len(mended)} rows, and what `rowmend` must answer and leave of each ({kinds})."
result(told in testing, "docs/TESTING.md tells what rows are stored: " + told)
answers = lines("crates/bursttake/stdout")
said = collections.Counter(answer.split(" ")[0] for answer in answers)
kinds = ", ".join(f"{said[kind]} {words}" for kind, words in (
    ("started", "started"), ("taken", "taken"), ("closed", "closed"), ("opened", "opened"),
    ("datagram", "datagrams handed out"), ("end", "at the end"), ("refused", "refused")))
told = f"| {len(answers):,} calls, and what `bursttake` must print of each ({kinds})."
calls = f"{len(answers):,} calls of start, take, close, open and next"
result(calls in on_one_line, "README tells how many stored: " + calls)
result(told in testing and len(said) == 7, "docs/TESTING.md tells what calls are stored: " + told)
refused = collections.Counter(answer.split(" ")[1] for answer in answers if answer.startswith("refused"))
result(all(refused[str(number)] > 1 for number in range(1, 14)), "each refusal of start, take, close and open is among them")
sys.exit(bad)
EOF
[ $? = 0 ] || status=1
exit $status
