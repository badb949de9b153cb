#!/bin/bash
# Hold the stored test files, the reference listing, what sectionwrite writes and
# what rowmend makes of rows against programs of others: crcmod (CRC_32), libfec
# (RS(255,191)), scapy (IP datagrams) and tshark (sections in a transport stream);
# and what bursttake and burstlist make of random bursts against the second receiver.
# What is missing is installed with apt-get (as root, from Debian); what is not to
# be had is named, and the checks go on without it. Status 1 on any difference, 2
# if something was not to be had. The rows and bursts are other ones each time: with a
# seed that was printed, check_outside.sh SEED takes the same ones again.
set -u
cd "$(dirname "${BASH_SOURCE[0]}")/.." || exit 1
python=/usr/bin/python3     # Debian's modules belong to this one
if [ ! -x "$python" ]; then
    echo "there is no $python: nothing can be compared"
    exit 2
fi
status=0
missing=""
say() { printf '%s\n' "$*"; }
differs() { say "DIFFERENT: $*"; status=1; }

# 1. The packages.
have() {
    case $1 in
        python3-crcmod) "$python" -c 'import crcmod' ;;
        python3-scapy)  "$python" -c 'import scapy.all' ;;
        libfec-dev)     "$python" -c 'import ctypes.util as u; exit(not u.find_library("fec"))' ;;
        tshark)         command -v tshark ;;
    esac >/dev/null 2>&1
}
ended() {       # ended STATUS WORDS PACKAGE..: well with 0, and with 2 where one of the packages is not to be had
    local state=$1 words=$2 package
    shift 2
    [ "$state" = 0 ] && return
    if [ "$state" = 2 ]; then
        for package; do
            have "$package" || return 0
        done
    fi
    differs "$words"
}
say "== Programs of others"
export DEBIAN_FRONTEND=noninteractive
updated=no
for package in python3-crcmod libfec-dev python3-scapy tshark; do
    if ! have "$package"; then
        [ $updated = yes ] || apt-get update >/dev/null 2>&1
        updated=yes
        apt-get install -y --no-install-recommends "$package" >/dev/null 2>&1
    fi
    if have "$package"; then
        say "there: $package $(dpkg-query -W -f '${Version}' "$package" 2>/dev/null)"
    else
        say "NOT TO BE HAD: $package"
        missing="$missing $package"
    fi
done

# 2. The stored files, made anew and compared byte by byte.
say "== Stored files made anew"
new=$(mktemp -d) || exit 1
trap 'rm -rf "$new"' EXIT
"$python" tools/make_vectors.py "$new" || differs "make_vectors.py did not end well"
"$python" tools/make_row_vectors.py "$new"
ended $? "make_row_vectors.py did not end well" libfec-dev
"$python" tools/make_take_vectors.py "$new" || differs "make_take_vectors.py did not end well"
"$python" tools/make_burst_vectors.py "$new" || differs "make_burst_vectors.py did not end well"
for name in samples/burst.bin crates/sectionlist/stdin crates/sectionlist/stdout \
            crates/section_vectors/stdin crates/section_vectors/stdout \
            crates/sectionwrite/stdin crates/sectionwrite/stdout \
            crates/rowmend/stdin crates/rowmend/stdout crates/linkdemo/stdout \
            crates/bursttake/stdin crates/bursttake/stdout \
            crates/burstlist/stdin crates/burstlist/stdout; do
    if [ ! -f "$new/$name" ]; then
        say "not made anew, not compared: $name"
        [ -n "$missing" ] || differs "$name is not made anew"
    elif cmp -- "$new/$name" "$name"; then
        say "the same, $(stat -c %s "$name") bytes: $name"
    else
        differs "$name"
    fi
done

# 3. The reference listing held against tshark's dissection.
say "== Listing of samples/burst.bin"
"$python" tools/reference_list.py < samples/burst.bin \
    || differs "reference_list.py did not end well"
if have tshark; then
    say "== tshark: samples/burst.bin, sections and the datagrams in them"
    "$python" tools/tshark_compare.py samples/burst.bin || differs "tshark, samples/burst.bin"
    say "== tshark: crates/sectionlist/stdin, section headers and CRC"
    "$python" tools/tshark_compare.py crates/sectionlist/stdin headers \
        || differs "tshark, crates/sectionlist/stdin"
else
    say "no tshark: the sections are not compared"
fi

# 4. What our own programs make, held against others.
built() {       # built NAME: target/bin/NAME is there, and no source is newer
    local program=target/bin/$1
    if [ -x "$program" ] && [ -z "$(find crates -name out -prune -o -name '*.rt' -newer "$program" -print -quit)" ]; then
        return
    fi
    if ! command -v rt >/dev/null; then
        say "NOT TO BE HAD: rt, to build $1"
        missing="$missing rt"
        return 1
    fi
    say "build it (tools/build.sh $1)"
    if ! tools/build.sh "$1" >"$new/log" 2>&1; then
        tail -n 5 "$new/log"
        differs "$1 is not built"
        return 1
    fi
}
decode_written() {
    local program=target/bin/sectionwrite lines=crates/sectionwrite/stdin
    built sectionwrite || return
    $program < $lines > "$new/written" || differs "sectionwrite did not end well"
    "$python" tools/written_compare.py $lines "$new/written"
    ended $? "what sectionwrite writes of $lines" tshark python3-crcmod
}
say "== What sectionwrite writes of crates/sectionwrite/stdin, decoded"
decode_written

mend_rows() {
    built rowmend || return
    "$python" tools/row_compare.py target/bin/rowmend "$@"
    ended $? "what rowmend makes of these rows" libfec-dev
}
say "== What rowmend makes of rows made at random, held against libfec"
mend_rows "$@"

take_bursts() {
    built bursttake || return
    "$python" tools/take_compare.py target/bin/bursttake "$@" || differs "what bursttake makes of these bursts"
}
say "== What bursttake makes of bursts made at random, held against the second receiver"
take_bursts "$@"

list_bursts() {
    built burstlist || return
    "$python" tools/burst_compare.py target/bin/burstlist "$@" || differs "what burstlist lists of these bursts"
}
say "== What burstlist lists of bursts, about half of them made at random, held against the second receiver"
list_bursts "$@"

say "== End"
[ $status = 0 ] && say "no difference in what was compared" || say "there are differences"
if [ -n "$missing" ]; then
    say "not to be had, left out:$missing"
    [ $status = 1 ] || status=2
fi
exit $status
