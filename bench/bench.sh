#!/usr/bin/env bash
# Builds the engine's program and the interpreter by copying, checks that they and Lua agree, and prints a table of their speeds (README.md).
#   bench.sh [REPEATS [HOW_MANY_RANDOM_SHEETS]]
set -euo pipefail
export PYTHONDONTWRITEBYTECODE=1
repeats=${1:-15}
random_sheets=${2:-300}
here=$(cd "$(dirname "$0")" && pwd)
fieldrun=$here/../crates/fieldrun
out=$here/out

command -v lua5.4 > /dev/null || { echo "lua5.4 is missing: apt-get install lua5.4"; exit 1; }
rm -rf "$out"
mkdir -p "$out"
# proves and builds the program, and runs it on the sample sheet
(cd "$fieldrun" && rt run < stdin > "$out/build.txt" 2>&1) || { tail -5 "$out/build.txt"; exit 1; }
gcc -O2 -Wall -Wextra -o "$out/copying" "$here/copying.c"
python3 "$here/sheets.py" "$out/sheets"
python3 "$here/random_sheets.py" "$out/random" "$random_sheets"
cp "$fieldrun/stdin" "$out/sample.sheet"
python3 "$here/calls.py" "$out/copying" "$here"/../crates/call_vectors/data/*.txt
python3 "$here/measure.py" "$fieldrun/out/fieldrun" "$out/copying" "$out/sheets" "$out/sample.sheet" "$out/random" "$repeats"
