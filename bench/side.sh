#!/usr/bin/env bash
# Puts programs side by side: archives of real files by each of the programs FDB.. in turn, so that a machine whose speed drifts drifts for all of
# them alike, with 1, 2 and 4 workers and a store of its own for each run: 100,000 messages of 183 octets into one dataset and into 154, 10,000 of them
# into 16, and 1,000 of 130 KB; and then, out of the store of those 10,000, retrieves of their whole days by a request, lists of all keys, and `pick` over the
# stream. Prints for each the median and the least wall seconds and the median processor seconds of REPEATS (7) runs, and how many
# times as long the median is as that of the first program. WORK is a folder on the file system to be measured (a RAM disk, /dev/shm, where there is one).
# SMALL (100,000), FEW (10,000) and LARGE (1,000) are the numbers of messages. No part of the gate.
set -eu
[ $# -gt 0 ] || { echo "bench/side.sh FDB.." >&2; exit 2; }
top=$(cd "$(dirname "$0")/.." && pwd)
place=${WORK:-$([ -d /dev/shm ] && echo /dev/shm || echo /tmp)}
work=$(mktemp -d "$place/fdb-side.XXXXXX")
trap 'rm -rf "$work"' EXIT
python3 - "$top/bench" "$work" "${REPEATS:-7}" "${SMALL:-100000}" "${FEW:-10000}" "${LARGE:-1000}" "$@" <<'PY'
import os, shutil, statistics, subprocess, sys, time

bench, work = sys.argv[1:3]
repeats, small, few, large = map(int, sys.argv[3:7])
programs = sys.argv[7:]
sys.path.insert(0, bench)
from messages import message

ONE = b"[class, expver [date, time, centre, type, levtype [param, step, levelist?]]]"
MANY = b"[class, expver, date, time [centre, type, levtype [param, step, levelist?]]]"


def stream(name, count, *size):
    path = f"{work}/{name}"
    with open(path, "wb") as out:
        for number in range(count):
            out.write(message(number, *size))
    return path


def timed(words, path):
    """Wall and processor seconds of a run with this file as its input."""
    with open(path, "rb") as given:
        start = time.perf_counter()
        child = subprocess.Popen(words, stdin=given, stdout=subprocess.DEVNULL, stderr=subprocess.DEVNULL)
        _, status, used = os.wait4(child.pid, 0)
    wall = time.perf_counter() - start
    assert status == 0, (words, status)
    return wall, used.ru_utime + used.ru_stime


def archived(program, schema, path, workers):
    """The same of one archive into a new store."""
    store = f"{work}/store"
    shutil.rmtree(store, ignore_errors=True)
    subprocess.run([program, "create", store], input=schema, check=True, capture_output=True)
    return timed([program, "archive", store, "--with", "class=od,expver=0001", "--workers", str(workers)], path)


def compare(title, run):
    """Runs each program in turn, and prints what each took."""
    runs = {program: [] for program in programs}
    for _ in range(repeats):
        for program in programs:
            runs[program].append(run(program))
    first = None
    for program in programs:
        walls = [wall for wall, _ in runs[program]]
        middle, spent = statistics.median(walls), statistics.median(used for _, used in runs[program])
        first = first or middle
        print(f"  {title} {middle:8.3f} s, least {min(walls):.3f}, processors {spent:.3f}, {middle / first:5.2f} times   {program}", flush=True)


def table(title, schema, path):
    print(title)
    for workers in (1, 2, 4):
        compare(f"{workers} workers", lambda program: archived(program, schema, path, workers))


def read_table(title, path):
    print(title)
    archived(programs[0], MANY, path, 1)
    store = f"{work}/store"
    asked, listed = f"{work}/asked", f"{work}/listed"
    days = few // 650 * 650
    with open(asked, "w") as out:
        subprocess.run([sys.executable, f"{bench}/messages.py", "--request", str(days)], stdout=out, check=True)
    with open(listed, "w") as out:
        out.write("list")
    for workers in (1, 2, 4):
        compare(f"retrieve of {days}, {workers} workers", lambda program: timed([program, "retrieve", store, "--workers", str(workers)], asked))
    compare("list", lambda program: timed([program, "list", store], listed))
    compare("pick", lambda program: timed([program, "pick", "step=6"], path))


few_path, small_path, large_path = stream("few", few), stream("small", small), stream("large", large, 130_000)
table(f"{small} of 183 octets, one dataset", ONE, small_path)
table(f"{small} of 183 octets, a dataset each 650", MANY, small_path)
table(f"{few} of 183 octets, a dataset each 650", MANY, few_path)
read_table(f"{few} of 183 octets, a dataset each 650, read", few_path)
table(f"{large} of 130 KB", MANY, large_path)
PY
