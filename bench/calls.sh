#!/usr/bin/env bash
# Counts the system calls of archives into new datasets: 10,000 messages of 183 octets into 16 and 100,000 into 154, by 1, 2 and 4 workers;
# and the files that no table lists then. Each FDB of FDBS (the program as it is built here) is counted in turn, so that two programs
# stand side by side. COUNTS (10000 100000) are the numbers of messages. Wants strace. No part of the gate.
set -eu
top=$(cd "$(dirname "$0")/.." && pwd)
command -v strace > /dev/null || { echo "bench/calls.sh: strace isn't here"; exit 0; }
work=$(mktemp -d "${WORK:-/tmp}/fdb-calls.XXXXXX")
trap 'rm -rf "$work"' EXIT
cd "$work"
echo "[class, expver, date, time [centre, type, levtype [param, step, levelist?]]]" > schema

# How often the run that was traced made a call.
calls() { awk -v call="$1" '$NF == call { n = $4 } END { print n + 0 }' traced; }

# The files of batches that no table lists.
unlisted() {
  python3 - "$top/bench" <<'PY'
import glob, os, sys
sys.path.insert(0, sys.argv[1])
from orphans import NAME, listed
count = 0
for dataset in glob.glob("store/*=*"):
    batches = listed(open(f"{dataset}/toc", "rb").read())
    names = filter(None, map(NAME.fullmatch, os.listdir(dataset)))
    count += sum((int(name[1]), int(name[2])) not in batches for name in names)
print(count)
PY
}

for count in ${COUNTS:-10000 100000}; do
  python3 "$top/bench/messages.py" "$count" > input
  for fdb in ${FDBS:-"$top/fdb"}; do
    for workers in 1 2 4; do
      rm -rf store
      "$fdb" create store < schema 2> /dev/null
      strace -f -c -o traced "$fdb" archive store --with class=od,expver=0001 --workers "$workers" < input 2> /dev/null
      echo "$fdb, $count messages, $workers workers: fsync $(calls fsync), openat $(calls openat), unlink $(calls unlink), pwrite64 $(calls pwrite64), unlisted files $(unlisted)"
    done
  done
done
