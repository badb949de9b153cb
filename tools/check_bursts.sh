#!/usr/bin/env bash
# What burstlist lists of bursts that are made here, held against the second receiver: of none, of one section, with losses that
# cannot be made good, of 20,001 sections, of garbage. The program is built with checks, and nothing is proved. The gate has
# other bursts besides, among the stored files.
set -euo pipefail
cd "$(dirname "${BASH_SOURCE[0]}")/.."
python=/usr/bin/python3
[ -x "$python" ] || python=python3
cases=$(mktemp -d)
trap 'rm -rf "$cases"' EXIT
"$python" tools/make_burst_vectors.py --cases "$cases" few
if ! said=$(cd crates/burstlist && rt try --steps 1 --cases "$cases" 2>&1) \
    || [ "$(grep -c ' output=expected ' <<<"$said")" != "$(find "$cases" -name '*.stdout' | wc -l)" ]; then
    echo "FAILED: burstlist lists bursts otherwise than the second receiver"
    echo "$said"
    exit 1
fi
echo "ok: burstlist lists $(find "$cases" -name '*.stdout' | wc -l) bursts as the second receiver does"
