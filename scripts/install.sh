#!/usr/bin/env bash
# Installs linkdiff, linkrec, linkgold and linkjson, and the modules that they import.
#
#     scripts/install.sh FOLDER
#
# They go to bin and share/linkcap in FOLDER. ./install and `tools/pages.py --run` call it.
set -euo pipefail
top=$(cd "$(dirname "$0")/.." && pwd)
[ $# -eq 1 ] || { echo "usage: scripts/install.sh FOLDER" >&2; exit 2; }
install -d "$1/bin" "$1/share/linkcap"
install -m 644 "$top"/bindings/python/linkcap/lines_*.py "$top"/scripts/*.py "$1/share/linkcap"
install -m 755 "$top"/scripts/link{diff,rec,gold,json} "$1/bin"
