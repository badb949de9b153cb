#!/usr/bin/env python3
"""Brings this repository's own names in specs/, proofs/ and clauses to today's
spelling, once, right after the toolchain's port.py: definitions, lemmas, fields
and local names in snake case, types in upper camel case.

respell.py [FOLDER] rewrites the files below FOLDER/crates (without it, below the
repository's root). Names of the code, and names that the toolchain makes from
them (a field right behind `c.` or `r.`, goals), are in no list or are passed
over; comments and strings are left as they are. It stops, with nothing written,
where one .antt file has both a name and its new spelling.
"""
import glob
import os
import re
import sys

TYPES = """
Closed-by Cut-up Header-in Header-of Lone-help No-bytes Pieces-law Reads-as
Run-law Same-section Section-of Stands-for Tells-size Told-by Too-short
Whole-section Written-again
""".split()

# A name that would fall together with one of the library, of a function or of a
# parameter gets another word; a lemma on a function keeps the dash after it.
OTHERS = {
    "bit-xor": "bit-bit_xor",
    "table-id": "table_id_of",
    "kind-bytes": "bytes_of_kind",
    "length-bytes": "bytes_of_length",
    "first-size": "size_of_first",
    "crc-byte-lt": "crc_byte-lt",
    "crc-bits-lt": "crc_bits-lt",
    "crc-from-lt": "crc_from-lt",
    "crc-from-++": "crc_from-++",
    "c.used-up": "c.used_up",
}

PLAIN = """
add-bit add-bits address-fits address-rule after-address after-end alike-1
alike-4-check alike-5-check alike-5-datagram alike-tested all-below and-true
answers-after answers-first answers-later before-crc before-later begins-more
behind-word bit-number blank-room blanks-put buffer-refused by-highest by-table
byte-1 byte-2 byte-3 byte-4 byte-5 byte-6 byte-7 byte-below bytes-again
can-be-run cases-written check-header check-kind column-5 column-fields
column-parts column-rule column-timing content-answers content-refused crc-0
crc-back crc-bit crc-bits crc-byte crc-from crc-passes crc-rule datagram-header
datagram-kind delta-rule delta-t digit-put digit-xor double-xor empty-tally
envelope-refused example-datagram example-header exits-rule exits-unchanged
exits-unmade field-passes field-rule first-and-rest first-is first-refuses
fits-counts five-seconds four-added front-held front-some gives-pieces
header-back header-bytes header-columns header-length header-same hex-digit
in-front in-header in-hex in-hex-more in-kind in-message is-a is-after
is-closing is-crc is-d is-end is-first is-id is-kind is-payload is-size is-w
is-z kind-alikes kind-of kind-of-header kind-passes kind-read kind-word
last-of-frame last-of-table late-refused layer-of layer-word left-aligned
length-passes length-put length-rule length-told low-passes mac-5 mac-6 marked-1
marked-5 marker-passes marker-rule markers-1 markers-5 mask-1 mask-5 mask-plain
message-alikes message-length none-cut none-follows none-held not-both
nothing-held number-width of-check of-datagram of-nothing on-top one-digit
one-version part-added passes-back passes-end passes-more payload-alikes
payload-back payload-length payload-of payload-passes payload-rule piece-held
pieces-first pieces-law pieces-some place-lt plain-rule polynomial-lt read-rules
reads-back real-time-of real-time-word refusal-columns refused-here
refused-later refused-within rest-decides rest-front right-aligned room-passes
run-law same-crc same-datagram same-if-alike scrambled-or-wrapped section-length
settles-no-other settles-one short-refused short-size size-passes size-rule
summary-of table-rule tells-only three-added timing-alikes timing-back
timing-columns timing-of timing-refused timing-rules told-length twelve-bits
two-parts unwritable-rule used-up version-number when-none whole-as whole-front
whole-passes whole-rule with-crc word-again word-put word-short write-field-rule
write-payload-rule write-rules written-again written-length wrote-all
wrote-first wrote-more zero-6 zero-7 zeros-rule
""".split()

NEW = {n: "".join(w[0].upper() + w[1:] for w in n.split("-")) for n in TYPES}
NEW |= {n: n.replace("-", "_") for n in PLAIN}
NEW |= OTHERS

# A comment, a string, or a name with its dashes; `c.` and `r.` go before names that the toolchain made.
TOKEN = re.compile(r"""--[^\n]*|//[^\n]*|b?"(?:[^"\\]|\\.)*"|(?<![\w'-])(?:[cr]\.)?[^\W\d][\w']*(?:-[\w'+]+)*""")


def respelled(text):
    return TOKEN.sub(lambda m: NEW.get(m[0], m[0]), text)


def main():
    root = sys.argv[1] if len(sys.argv) > 1 else os.path.dirname(os.path.dirname(os.path.abspath(__file__)))
    files = [f for pattern in ("specs/**/*.antt", "proofs/**/*.antt", "src/**/*.rt")
             for f in glob.glob(os.path.join(root, "crates", "*", pattern), recursive=True)]
    texts = {}
    for f in files:
        with open(f, encoding="utf-8") as file:
            texts[f] = file.read()
    for f, text in texts.items():
        if f.endswith(".antt"):
            there = {m[0] for m in TOKEN.finditer(text) if text[m.start() - 1:m.start()] != "."}    # fields of the code aside
            for old in there & NEW.keys():
                if NEW[old] in there:
                    sys.exit(f"{f}: {old} would fall together with {NEW[old]}")
    for f, text in texts.items():
        if (new := respelled(text)) != text:
            with open(f, "w", encoding="utf-8") as file:
                file.write(new)


main()
