#!/usr/bin/env bash
# Times `check` and `render` over 16 MiB of hexadecimal made of the largest rasters, 524,160 bytes of dots each, beside as
# much plain text.
# Build the program first: (cd crates/escpos_cli && rt run -- help)
set -euo pipefail
top=$(cd "$(dirname "$0")/.." && pwd)
program=$top/crates/escpos_cli/out/escpos_cli
source "$top/bench/measure.sh"

python3 - "$folder" <<'PYTHON'
import random, sys
folder = sys.argv[1]
limit = 16 * 1024 * 1024
random.seed(1)
raster = "1D7630008000FF0F" + "".join("%02X" % random.randrange(256) for _ in range(128)) * 4095
open(folder + "/rasters.hex", "w").write(raster * (limit // len(raster)))
open(folder + "/half_the_rasters.hex", "w").write(raster * (limit // len(raster) // 2))
line = "41" * 40 + "0A"
open(folder + "/text.hex", "w").write(line * (limit // len(line)))
PYTHON
for job in check render; do
  measure "$job" "$folder/half_the_rasters.hex"
  measure "$job" "$folder/rasters.hex"
  measure "$job" "$folder/text.hex"
done
