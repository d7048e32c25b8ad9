#!/usr/bin/env bash
# Prints all speeds in one run, ratios first. bench/run.py says what it measures and needs.
#
#     bench/run.sh [--megabytes N] [--rounds N] [--only GROUP,..]
set -euo pipefail
exec python3 "$(dirname "$0")/run.py" "$@"
