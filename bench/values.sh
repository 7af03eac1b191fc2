#!/usr/bin/env bash
# Points per second of `fdb values`, and beside it of ecCodes' `grib_get_data` where it is installed, over one message of
# 70,000 points packed in 16 bits. FDB names the program, where it isn't to be built here. No part of the gate.
set -eu
top=$(cd "$(dirname "$0")/.." && pwd)
fdb=${FDB:-$top/fdb}
work=$(mktemp -d)
trap 'rm -rf "$work"' EXIT

# one message: a grid of 350 by 200 points, reference 250, no binary scale, two decimals, 16 bits
python3 - "$work/field.grib2" <<'PY'
import struct, sys
columns, rows = 350, 200
points = columns * rows
packed = b"".join(struct.pack(">H", (7919 * i) % 65536) for i in range(points))
def section(number, rest):
    return struct.pack(">IB", 5 + len(rest), number) + rest
missing = b"\xff" * 4
one = section(1, struct.pack(">HHBBBHBBBBBBB", 98, 0, 2, 0, 1, 2024, 1, 1, 0, 0, 0, 0, 1))
grid = bytes([6]) + (b"\xff" + missing) * 3 + struct.pack(">II", columns, rows) + struct.pack(">I", 0) + missing
corners = struct.pack(">II", 89500000, 0) + b"\x30" + struct.pack(">II", 0x80000000 | 9500000, 174500000)
grid += corners + struct.pack(">IIB", 500000, 500000, 0)
three = section(3, struct.pack(">BIBBH", 0, points, 0, 0, 0) + grid)
product = struct.pack(">BBBBBHBBIB", 0, 0, 2, 0, 0, 0, 0, 1, 0, 100) + b"\x00" + struct.pack(">I", 50000) + b"\xff" * 6
four = section(4, struct.pack(">HH", 0, 0) + product)
five = section(5, struct.pack(">IH", points, 0) + struct.pack(">fHHBB", 25000.0, 0, 2, 16, 0))
six = section(6, b"\xff")
body = one + three + four + five + six + section(7, packed) + b"7777"
zero = b"GRIB\xff\xff\x00\x02" + struct.pack(">Q", 16 + len(body))
open(sys.argv[1], "wb").write(zero + body)
PY
"$fdb" values < /dev/null

# run NAME TIMES COMMAND.. : points per second over so many runs
run() {
  python3 - "$@" <<'PY'
import os, subprocess, sys, time
name, times, command = sys.argv[1], int(sys.argv[2]), sys.argv[3:]
begin = time.time()
lines = 0
for _ in range(times):
    with open(os.environ["FIELD"], "rb") as source, open(os.environ["OUT"], "wb") as sink:
        status = subprocess.call(command, stdin=source, stdout=sink)
seconds = time.time() - begin
print(f"{name:24} {times * 70000 / seconds:12.0f} points/s  {seconds / times:7.3f} s  {os.path.getsize(os.environ['OUT'])} octets  status {status}")
PY
}
export FIELD=$work/field.grib2 OUT=$work/out
run "fdb values" 5 "$fdb" values
run "fdb values --decimals 2" 5 "$fdb" values --decimals 2
if command -v grib_get_data > /dev/null; then
  run grib_get_data 5 grib_get_data -F %.2f "$work/field.grib2"
else
  echo "grib_get_data is not installed (Debian: libeccodes-tools)"
fi
