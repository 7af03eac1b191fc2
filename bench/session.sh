#!/usr/bin/env bash
# Measures sessions over real files: four lanes that write and four that read side by side, beside the same steps by one lane
# that takes them in turns, each session over a store of its own. Each writer puts its messages and lists them in batches; each
# reader gets one key a step, of those that are written. Prints wall time, processor time, and messages and gets a second, the
# least of REPEATS (5) runs of each kind. MESSAGES says how many a writer puts (4,000 steps at most), BATCH how many a batch
# has. FDB names the program, where it isn't to be built here. No part of the gate.
set -eu
top=$(cd "$(dirname "$0")/.." && pwd)
fdb=${FDB:-$top/fdb}
"$fdb" pick step=0 < /dev/null > /dev/null 2>&1 || true
work=$(mktemp -d)
trap 'rm -rf "$work"' EXIT
python3 - "$fdb" "$work" "${MESSAGES:-900}" "${BATCH:-100}" "${REPEATS:-5}" "$top/bench" <<'PY'
import os, resource, shutil, subprocess, sys, time

fdb, work, messages, batch, repeats = sys.argv[1], sys.argv[2], *map(int, sys.argv[3:6])
sys.path.insert(0, sys.argv[6])
from messages import LEVELS, PARAMETERS, message

LANES, GETS = 4, 900
DATASET = "class=od,expver=0001,date=20240101,time=0000"
# 650 keys in the one dataset, which are written again and again
octets = b"".join(message(i) for i in range(650))


def put_steps(lane):
    steps = []
    for i in range(messages):
        steps.append(f"put {1 + (LANES * i + lane) % 650}")
        if (i + 1) % batch == 0 or i + 1 == messages:
            steps.append("flush")
    return steps


def get_steps(lane):
    keys = [(37 * (LANES * i + lane)) % 650 for i in range(GETS)]
    return [f"get retrieve,class=od,expver=0001,date=20240101,time=00,centre=98,type=1,levtype=100,"
            f"param=0.{PARAMETERS[key // 130][0]}.{PARAMETERS[key // 130][1]},step={6 * (key // 13 % 10)},levelist={LEVELS[key % 13]}"
            for key in keys]


def script(lanes):
    lines = [f"dataset {DATASET}"]
    for name, steps in lanes:
        lines += [f"lane {name} class=od,expver=0001", *steps]
    return "\n".join([*lines, "messages", ""]).encode() + octets


def in_turns(lists):
    return [step for turn in zip(*[steps + [None] * (max(map(len, lists)) - len(steps)) for steps in lists]) for step in turn if step]


def measure(given):
    """The least wall and processor seconds of a session."""
    open(f"{work}/input", "wb").write(given)
    best = None
    for _ in range(repeats):
        shutil.rmtree(f"{work}/store", ignore_errors=True)
        subprocess.run([fdb, "create", f"{work}/store"], input=b"[class, expver, date, time [centre, type, levtype [param, step, levelist?]]]\n",
                       check=True, capture_output=True)
        before, begun = resource.getrusage(resource.RUSAGE_CHILDREN), time.time()
        with open(f"{work}/input", "rb") as source:
            ended = subprocess.run([fdb, "session", f"{work}/store"], stdin=source, stdout=subprocess.DEVNULL, stderr=subprocess.PIPE)
        wall, after = time.time() - begun, resource.getrusage(resource.RUSAGE_CHILDREN)
        assert ended.returncode == 0, ended.stderr[-300:]
        spent = after.ru_utime + after.ru_stime - before.ru_utime - before.ru_stime
        best = min(best or (wall, spent), (wall, spent))
    return best


writers = [put_steps(lane) for lane in range(LANES)]
readers = [get_steps(lane) for lane in range(LANES)]
kinds = {
    "4 writers and 4 readers": script([(f"w{i}", steps) for i, steps in enumerate(writers)] + [(f"r{i}", steps) for i, steps in enumerate(readers)]),
    "4 writers": script([(f"w{i}", steps) for i, steps in enumerate(writers)]),
}
# a lane has at most 4,096 steps, so one lane does a part of them, and its time is scaled
one = in_turns(writers + readers)[:4096]
kinds["one lane, in turns"] = script([("a", one)])
for kind, given in kinds.items():
    puts, gets = given.count(b"\nput "), given.count(b"\nget ")
    wall, spent = measure(given)
    print(f"{kind}: {puts} messages, {gets} gets, {wall:.3f} s, {spent:.3f} s of processors; "
          f"{puts / wall:.0f} messages and {gets / wall:.0f} gets a second")
print(f"{os.cpu_count()} processors")
PY
