#!/usr/bin/env bash
# Proves programs with all that they stand on, and builds them: build.sh NAME.. leaves target/bin/NAME.
# Each is run once on empty input, which is how the toolchain's command ends; what that prints is left out.
set -euo pipefail
cd "$(dirname "${BASH_SOURCE[0]}")/.."
mkdir -p target/bin
for name in "$@"; do
    (cd "crates/$name" && rt run </dev/null >/dev/null)
    cp "crates/$name/out/$name" target/bin/
    echo "   $name is proved, with the crates below it, and built: target/bin/$name"
done
