#!/usr/bin/env bash
# Times `encode` over 16 MiB of JSON made of the largest rasters, and of short lines, and over half as much of each, to see
# that time is proportional to length.
# Build the program first: (cd crates/escpos_cli && rt run -- help)
set -euo pipefail
top=$(cd "$(dirname "$0")/.." && pwd)
program=$top/crates/escpos_cli/out/escpos_cli
source "$top/bench/measure.sh"

python3 - "$folder" <<'PYTHON'
import random, sys
folder = sys.argv[1]
limit = 16 * 1024 * 1024
random.seed(1)
dots = "".join("%02x" % random.randrange(256) for _ in range(128)) * 4095
raster = '{"raster":{"scale":"normal","x":128,"y":4095,"dots":"%s"}}' % dots
for name, entry in ("rasters", raster), ("short_lines", '{"line":"Hi"}'), ("long_lines", '{"line":"%s"}' % ("A" * 40)):
    count = (limit - 1) // (len(entry) + 1)
    for part, some in ("", count), ("half_the_", count // 2):
        with open(f"{folder}/{part}{name}.json", "w") as it:
            it.write("[" + ",".join([entry] * some) + "]")
PYTHON
for name in rasters short_lines long_lines; do
  measure encode "$folder/half_the_$name.json"
  measure encode "$folder/$name.json"
done
