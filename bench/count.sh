#!/usr/bin/env bash
# Counts instructions, which no other work on the machine changes: those of `pick`, and of `archive` and `retrieve` of small messages (183
# octets) and of large ones (130 KB), each a message, less those of the same command over one message. Each FDB of FDBS (the program as it
# is built here) is counted in turn, so that two programs stand side by side. SMALL (2,000) and LARGE (40) are the numbers of
# messages. Wants valgrind. No part of the gate.
set -eu
top=$(cd "$(dirname "$0")/.." && pwd)
command -v valgrind > /dev/null || { echo "bench/count.sh: valgrind isn't here"; exit 0; }
small=${SMALL:-2000}
large=${LARGE:-40}
work=$(mktemp -d)
trap 'rm -rf "$work"' EXIT
cd "$work"
echo "[class, expver [date, time, centre, type, levtype [param, step, levelist?]]]" > schema
messages() { python3 "$top/bench/messages.py" "$@"; }
messages "$small" > small.grib2
messages "$large" 0 130000 > large.grib2
messages 1 > small_one.grib2
messages 1 0 130000 > large_one.grib2

# A request for the first N messages, level by level.
asked() {
  python3 - "$top/bench" "$1" <<'PY'
import sys
sys.path.insert(0, sys.argv[1])
from messages import LEVELS, PARAMETERS
count = int(sys.argv[2])
head = "retrieve, class=od, expver=0001, date=20240101, time=00, centre=98, type=1, levtype=100, param=0.0.0"
if count == 1:
    print(f"{head}, step=0, levelist={LEVELS[0]}")
else:
    print(f"{head}, step=0/to/{6 * (min(count, 130) // 13 - 1)}/by/6, levelist={'/'.join(map(str, LEVELS))}")
PY
}

# How many instructions a run takes.
counted() {
  local given=$1
  shift
  valgrind --tool=callgrind --callgrind-out-file=/dev/null "$@" < "$given" 2>&1 > /dev/null | awk '/Collected/ { print $4 }'
}

# Those of the first run less those of the second, a message.
told() { printf '  %-22s %9d instructions a message\n' "$1" $((($2 - $3) / ($4 - 1))); }

for fdb in ${FDBS:-"$top/fdb"}; do
  echo "$fdb"
  told pick "$(counted small.grib2 "$fdb" pick step=6)" "$(counted small_one.grib2 "$fdb" pick step=6)" "$small"
  for size in small large; do
    count=${!size}
    rm -rf store one
    for store in store one; do "$fdb" create $store < schema 2> /dev/null; done
    told "archive, $size" "$(counted $size.grib2 "$fdb" archive store --with class=od,expver=0001)" \
      "$(counted ${size}_one.grib2 "$fdb" archive one --with class=od,expver=0001)" "$count"
    keys=$(((count < 130 ? count : 130) / 13 * 13))
    asked "$keys" > asked
    asked 1 > asked_one
    told "retrieve, $size" "$(counted asked "$fdb" retrieve store)" "$(counted asked_one "$fdb" retrieve store)" "$keys"
  done
done
