#!/usr/bin/env bash
# Times `render` over 16 MiB of hexadecimal: lines of 30 characters with a change of style each, and, as the
# worst case for memory, lines of one character.
# Build the program first: (cd crates/escpos_cli && rt run -- help)
set -euo pipefail
top=$(cd "$(dirname "$0")/.." && pwd)
program=$top/crates/escpos_cli/out/escpos_cli
source "$top/bench/measure.sh"

python3 - "$folder" <<'PYTHON'
import random, sys
folder = sys.argv[1]
limit = 16 * 1024 * 1024
random.seed(1)
lines, size = [], 0
while True:
    line = "1B45%02X" % random.randint(0, 1) + "".join("%02X" % random.randint(0x41, 0x5A) for _ in range(30)) + "0A"
    if size + len(line) > limit:
        break
    lines.append(line)
    size += len(line)
open(folder + "/styled.hex", "w").write("".join(lines))
open(folder + "/short.hex", "w").write("410A" * (limit // 4))
PYTHON
measure render "$folder/styled.hex"
measure render "$folder/short.hex"
