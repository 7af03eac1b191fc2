#!/usr/bin/env bash
# Times `fdb cubes` over real files: 1,000, 10,000 and 100,000 keys of a full cube, of the same with a tenth of its keys left out at
# random, and of keys drawn at random out of ten times as many. Beside it stands `fdb list` of the same keys, which reads the same
# indexes and joins nothing. Each line's keys are counted, and their sum is to be the number of the keys. Prints medians of RUNS runs (3)
# with the start of the process, the number of lines and the peak memory. FDB names the program, where it isn't to be built here; WORK a
# folder on the file system to be measured. No part of the gate.
set -eu
top=$(cd "$(dirname "$0")/.." && pwd)
fdb=${FDB:-$top/fdb}
"$fdb" pick step=0 < /dev/null > /dev/null 2>&1 || true
work=$(mktemp -d "${WORK:-/tmp}/fdb-cubes.XXXXXX")
trap 'rm -rf "$work"' EXIT
python3 - "$fdb" "$work" "${RUNS:-3}" "$top/bench" <<'PY'
import json, math, os, random, shutil, statistics, subprocess, sys

fdb, work, runs, bench = sys.argv[1], sys.argv[2], int(sys.argv[3]), sys.argv[4]
sys.path.insert(0, bench)
from messages import message

# A small process that starts the runs: what a process began with counts among its peak memory, and this one is large.
RUNNER = """
import json, os, subprocess, sys, time
for line in sys.stdin:
    words, given, out = json.loads(line)
    start = time.perf_counter()
    child = subprocess.Popen(words, stdin=open(given, "rb"), stdout=open(out, "wb"), stderr=subprocess.DEVNULL)
    _, status, used = os.wait4(child.pid, 0)
    print(json.dumps([time.perf_counter() - start, used.ru_maxrss / 1024, status]), flush=True)
"""
runner = subprocess.Popen([sys.executable, "-S", "-c", RUNNER], stdin=subprocess.PIPE, stdout=subprocess.PIPE, text=True)


def timed(words, given, out):
    """Seconds and peak memory in MiB of a run that ends with status 0."""
    runner.stdin.write(json.dumps([words, given, out]) + "\n")
    runner.stdin.flush()
    wall, memory, status = json.loads(runner.stdout.readline())
    assert status == 0, (words, status)
    return wall, memory


def write(name, octets):
    path = f"{work}/{name}"
    open(path, "wb").write(octets)
    return path


def keys_of(line):
    """How many keys a printed request has."""
    verb, *pairs = line.split(",")
    assert verb == "retrieve"
    return math.prod(pair.count("/") + 1 for pair in pairs)


def numbers(kind, count):
    """The numbers of the messages whose keys are stored."""
    chosen = random.Random(count)
    if kind == "full":
        return range(count)
    if kind == "holes":
        return sorted(chosen.sample(range(count + count // 9), count))
    return sorted(chosen.sample(range(10 * count), count))


levels = write("schema", b"[class, expver [date, time, centre, type, levtype [param, step, levelist?]]]\n")
asked, store, out = write("list", b"list\n"), f"{work}/store", f"{work}/out"
for count in (1_000, 10_000, 100_000):
    for kind in ("full", "holes", "random"):
        shutil.rmtree(store, ignore_errors=True)
        timed([fdb, "create", store], levels, out)
        stream = write("stream", b"".join(message(i) for i in numbers(kind, count)))
        timed([fdb, "archive", store, "--with", "class=od,expver=0001"], stream, out)
        lists = [timed([fdb, "list", store], asked, out) for _ in range(runs)]
        assert open(out).read().count("\n") == count
        cubes = [timed([fdb, "cubes", store], asked, out) for _ in range(runs)]
        lines = open(out).read().splitlines()
        assert sum(map(keys_of, lines)) == count and lines == sorted(lines)
        print(f"{kind:6} {count:7} keys: cubes {statistics.median(row[0] for row in cubes) * 1e3:8.0f} ms in {len(lines):6} lines, "
              f"list {statistics.median(row[0] for row in lists) * 1e3:8.0f} ms; peak {max(row[1] for row in cubes):7.1f} MiB", flush=True)
PY
