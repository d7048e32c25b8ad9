#!/usr/bin/env bash
# Checks the results of the programs on broken captures by laws, without a second implementation.
#
#     bench/hostile.sh [SEED [COUNT]]
#
# bench/hostile.py makes COUNT captures (1000000) by mutations of the samples, the vectors and bodies by the rows of
# tools/oracle/raw.tsv, the same ones for the same SEED (1), and runs the programs vectors and linkcap on them. It builds
# nothing, and no gate runs it.
set -euo pipefail
cd "$(dirname "$0")/.."

for name in vectors linkcap; do
    [ -x "crates/$name/out/$name" ] || { echo "no program crates/$name/out/$name: build it first" >&2; exit 1; }
done
exec python3 bench/hostile.py "${1:-1}" "${2:-1000000}"
