#!/usr/bin/env bash
# Times `check` over the longest listing that 16 MiB of input can have: 8 MiB of characters.
# Build the program first: (cd crates/escpos_cli && rt run -- help)
set -euo pipefail
top=$(cd "$(dirname "$0")/.." && pwd)
program=$top/crates/escpos_cli/out/escpos_cli
source "$top/bench/measure.sh"

python3 -c "import sys; sys.stdout.write('41' * (8 * 1024 * 1024))" > "$folder/characters.hex"
measure check "$folder/characters.hex"
