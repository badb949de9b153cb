#!/usr/bin/env bash
# One real job from beginning to end: the programs are proved, built and run on the sample burst, whose datagrams come out; a
# row is protected, damaged and mended; and bursts take sections, are closed and read out. Each step is told.
set -euo pipefail
cd "$(dirname "${BASH_SOURCE[0]}")/.."
burst=samples/burst.bin
log=$(mktemp)
trap 'rm -f "$log"' EXIT

echo "1. Prove the layers and the programs sectionlist, sectionwrite, burstlist and linkdemo, and build them (tools/build.sh;"
echo "   some minutes at first)."
if ! tools/build.sh sectionlist sectionwrite burstlist linkdemo 2>"$log"; then
    cat "$log"
    exit 1
fi

echo
echo "2. The input: $burst, $(stat -c %s "$burst") bytes of sections laid back to back: twelve datagram sections, four"
echo "   check columns, one with a flipped bit and one cut short. It was made by a Python program with crcmod and libfec."

echo
echo "3. List it (target/bin/sectionlist < $burst): each section's fields, or the number, layer and place of its refusal."
target/bin/sectionlist < "$burst"

echo
echo "4. Hold that against a second listing, written in Python from the formats alone (tools/reference_list.py)."
python=/usr/bin/python3
[ -x "$python" ] || python=python3
if command -v "$python" >/dev/null; then
    target/bin/sectionlist < "$burst" | cmp - <("$python" tools/reference_list.py < "$burst")
    echo "   The two listings are the same, byte for byte."
else
    echo "   There is no Python 3 here: left out."
fi

echo
echo "5. Take them as the sections of one burst, close it and list the datagrams that come out (target/bin/burstlist < $burst);"
echo "   the last line has the sections taken and refused, and the rows filled, torn and open. What is refused is told, too."
target/bin/burstlist < "$burst" 2>&1
if command -v "$python" >/dev/null; then
    target/bin/burstlist < "$burst" 2>/dev/null | cmp - <("$python" tools/reference_burst.py < "$burst")
    echo "   A second receiver, written in Python from the rules alone (tools/reference_burst.py), lists the same."
fi

echo
echo "6. Write the first section of that file again from its fields (target/bin/sectionwrite)."
payload=$(od -An -v -tx1 -j12 -N200 "$burst" | tr -d ' \n' | tr a-f A-F)
read -r mac_6 mac_5 < <(od -An -tu1 -j3 -N2 "$burst")
line="datagram $mac_6 $mac_5 4 500 0 0 0 $payload"
echo "   $line"
written=$(target/bin/sectionwrite <<< "$line")
echo "   $written"
if [ "$written" != "$(od -An -v -tx1 -N216 "$burst" | tr -d ' \n' | tr a-f A-F)" ]; then
    echo "   That is not the section of the file."
    exit 1
fi
echo "   These are the 216 bytes that the file begins with, CRC_32 included."

echo
echo "7. Protect a row of a frame with RS(255,191), damage it and mend it; then have a burst take the sections of a frame, and"
echo "   others among them; close one with a loss and a forgery, and one whose loss can be made good, and read both out"
echo "   (target/bin/linkdemo; what it tells has come out in this run, or it ends with an error):"
target/bin/linkdemo | sed 's/^./   &/'

echo
echo "8. Work out the 64 syndromes of that row by their definition (tools/reference_rows.py)."
if command -v "$python" >/dev/null; then
    target/bin/linkdemo | "$python" tools/reference_rows.py
    echo "   All are 0: it is a codeword."
else
    echo "   There is no Python 3 here: left out."
fi
