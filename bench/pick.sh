#!/usr/bin/env bash
# Throughput and peak memory of `fdb pick`, and beside it of ecCodes' `grib_copy -w` where it is installed, over a
# stream of at least 256 MB that repeats the samples, then `fdb pick` alone over twice that stream and over streams with
# junk between the messages. FDB names the program, where it isn't to be built here. No part of the gate.
set -eu
top=$(cd "$(dirname "$0")/.." && pwd)
fdb=${FDB:-$top/fdb}
work=$(mktemp -d)
trap 'rm -rf "$work"' EXIT
stream=$work/stream.grib2
size=$(stat -c %s "$top/samples/forecast.grib2")
times=$((268435456 / size + 1))
for _ in $(seq 64); do cat "$top/samples/forecast.grib2"; done > "$work/part"
for _ in $(seq $((times / 64 + 1))); do cat "$work/part"; done > "$stream"
"$fdb" pick step=6 < "$top/samples/forecast.grib2" > /dev/null

# run NAME COMMAND.. : its seconds, throughput and peak memory
run() {
  python3 - "$@" <<'PY'
import os, resource, subprocess, sys, time
name, command = sys.argv[1], sys.argv[2:]
stream, out = os.environ["STREAM"], os.environ["OUT"]
begin = time.time()
with open(stream, "rb") as source, open(out, "wb") as sink:
    status = subprocess.call(command, stdin=source, stdout=sink)
seconds = time.time() - begin
memory = resource.getrusage(resource.RUSAGE_CHILDREN).ru_maxrss
size = os.path.getsize(stream)
print(f"{name:12} {size / 1e6:8.0f} MB {seconds:7.2f} s {size / 1e6 / seconds:8.1f} MB/s  peak {memory / 1024:7.1f} MiB  status {status}")
PY
}
export STREAM=$stream OUT=$work/out
run fdb "$fdb" pick step=6
ls -l "$work/out" | awk '{print "  wrote", $5, "octets"}'

# Linear time: twice the input is to take at most 2.3 times as long, also with junk between the messages.
{ cat "$stream"; cat "$stream"; } > "$work/twice"
STREAM=$work/twice run twice "$fdb" pick step=6
rm "$work/twice"
{ cat "$top/samples/forecast.grib2"; head -c 4096 /dev/zero | tr '\0' 'G'; } > "$work/one"
for _ in $(seq 64); do cat "$work/one"; done > "$work/part"
for _ in $(seq $((times / 64 + 1))); do cat "$work/part"; done > "$work/junk"
STREAM=$work/junk run junk "$fdb" pick step=6
{ cat "$work/junk"; cat "$work/junk"; } > "$work/twice"
STREAM=$work/twice run "twice junk" "$fdb" pick step=6
rm "$work/twice" "$work/junk"

if command -v grib_copy > /dev/null; then
  run grib_copy grib_copy -w stepRange=6 "$stream" "$work/copied"
else
  echo "grib_copy is not installed (Debian: libeccodes-tools)"
fi
