#!/usr/bin/env bash
# What must not compile: a section handed to a closed burst, a wake order that is forgotten, and cells changed while a read-out
# lives. On a copy of the crates a small program does each, and the compiler must refuse it by the error named here; the same
# program without that must compile.
set -euo pipefail
cd "$(dirname "${BASH_SOURCE[0]}")/.."
copy=$(mktemp -d)
trap 'rm -rf "$copy"' EXIT
cp crates.txt "$copy"
tar -cf - --exclude=out --exclude=must-fail crates | tar -xf - -C "$copy"
echo "misuse: rowcode receiver" >>"$copy/crates.txt"
mkdir -p "$copy/crates/misuse/src"

# A burst of 256 rows without check columns is started and closed; then the lines of $1 are done.
write_program() {
    cat >"$copy/crates/misuse/src/main.rt" <<EOF
//! A burst is started and closed.
#![tactic(auto)]

use receiver::{Alarm, Burst, Wake, WakeOrder};
use rowcode::Bare;

fn main(_rt: HostRuntime) -> Result<(), std::fmt::Error> {
    let (mut cells, mut marks) = ([0; 48896], [0; 48896]);
    let (mut scratch, mut names) = ([0; 255], [0; 256]);
    let mut alarm = Alarm { wake: Some(Wake::EndOfService) };
    if let Ok(mut burst) = Burst::<Bare>::start(0, &cells, &mut marks) {
        let _ = burst.take(&[], 0, &mut cells, &mut marks);
        match burst.close(&mut Bare, &mut cells, &mut marks, &mut scratch, &mut names) {
            Ok((mut closed, wake_order, _tallies)) => {
                $1
            }
            Err(_) => {}
        }
    }
    Ok(())
}
EOF
}

# The program with the lines of $2 compiles, and runs.
compiles() {
    write_program "$2"
    if ! said=$(cd "$copy/crates/misuse" && rt try 2>&1); then
        echo "$1: does not compile, and should"
        echo "$said"
        exit 1
    fi
    echo "$1: compiles"
}

# The program with the lines of $3 is refused by the compiler with the error $2.
is_refused() {
    write_program "$3"
    if said=$(cd "$copy/crates/misuse" && rt try 2>&1) || ! grep -q "error\[$2\]" <<<"$said"; then
        echo "$1: is not refused by the error $2"
        echo "$said"
        exit 1
    fi
    echo "$1: refused, $2"
}

set_on='wake_order.set_on(&mut alarm);'
compiles "a wake order that is set" "$set_on"
is_refused "a section handed to a closed burst" unknown-method \
    "$set_on let _ = closed.take(&[], 0, &mut cells, &mut marks);"
is_refused "a section handed to a burst that was closed" borrow-e0382 \
    "$set_on let _ = burst.take(&[], 0, &mut cells, &mut marks);"
is_refused "a wake order that is forgotten" linear-value-let-go ""
is_refused "a wake order that is made by hand" private-field \
    "$set_on WakeOrder { wake: Wake::Unknown }.set_on(&mut alarm);"
compiles "cells changed after a read-out" \
    "$set_on if let Ok(mut read_out) = closed.open(&cells, &marks) { let _ = read_out.next(); cells[0] = 1; }"
is_refused "cells changed while a read-out lives" borrow-e0506 \
    "$set_on if let Ok(mut read_out) = closed.open(&cells, &marks) { cells[0] = 1; let _ = read_out.next(); }"
