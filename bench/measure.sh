# Sourced by the scripts beside it. It sets `folder`, a folder for inputs that is removed at the end, and
# needs `program`, the built program.
[ -x "$program" ] || { echo "no program at $program: build it first" >&2; exit 1; }
folder=$(mktemp -d)
trap 'rm -rf "$folder"' EXIT

# measure JOB FILE: runs a job on a file three times, and prints the quickest run: its time, the bytes read
# and written, and the most memory held.
measure() {
  python3 - "$program" "$1" "$2" <<'PYTHON'
import os, resource, subprocess, sys, time
program, job, path = sys.argv[1:]

def run():
    start = time.monotonic()
    process = subprocess.Popen([program, job], stdin=open(path, "rb"), stdout=subprocess.PIPE)
    count = 0
    while piece := process.stdout.read(1 << 20):
        count += len(piece)
    process.wait()
    return time.monotonic() - start, count

seconds, count = min(run() for _ in range(3))
memory = resource.getrusage(resource.RUSAGE_CHILDREN).ru_maxrss // 1024
size = os.path.getsize(path)
name = os.path.basename(path)
print(f"{job} {name}: {seconds:.2f} s, {size / 1e6:.1f} MB in at {size / 1e6 / seconds:.1f} MB/s, "
      f"{count / 1e6:.1f} MB out, {memory} MiB held, {os.cpu_count()} processors")
PYTHON
}
