#!/usr/bin/env bash
# Measures archiving by several workers over real files: `archive --workers` of many small messages and of fewer large ones, and
# `trial --workers`, which makes its messages up, archives them and reads them again, each with 1, 2, 4 and 8 workers and into a
# store of its own. WORK is a folder on the file system to be measured (a RAM disk, /dev/shm, where there is one: there the
# disk isn't the limit). Beside it stand FDB5's `fdb-write` over the same streams and its `fdb-hammer`, where these and ecCodes are
# installed: one process each, the latter with messages of 203 octets that it makes up, at most 6,500.
# Prints messages and bytes a second, wall and processor seconds and the peak memory, the least of REPEATS (3) runs each, and
# how many times as fast as one worker. SMALL messages of 183 octets (100,000), LARGE of 130 KB (1,000), TRIAL made up ones
# (20,000). FDB names the program, where it isn't to be built here. No part of the gate.
set -eu
top=$(cd "$(dirname "$0")/.." && pwd)
fdb=${FDB:-$top/fdb}
"$fdb" pick step=0 < /dev/null > /dev/null 2>&1 || true
place=${WORK:-$([ -d /dev/shm ] && echo /dev/shm || echo /tmp)}
work=$(mktemp -d "$place/fdb-bulk.XXXXXX")
trap 'rm -rf "$work"' EXIT
python3 - "$fdb" "$work" "${SMALL:-100000}" "${LARGE:-1000}" "${TRIAL:-20000}" "${REPEATS:-3}" "$top/bench" <<'PY'
import json, os, shutil, subprocess, sys

fdb, work, small, large, tried, repeats = sys.argv[1], sys.argv[2], *map(int, sys.argv[3:7])
sys.path.insert(0, sys.argv[7])
from messages import message

# A small process that starts the runs: what a process began with counts among its peak memory, and this one will be large.
RUNNER = """
import json, os, subprocess, sys, time
for line in sys.stdin:
    words, given, out, told = json.loads(line)
    start = time.perf_counter()
    child = subprocess.Popen(words, stdin=open(given, "rb") if given else subprocess.DEVNULL,
                             stdout=open(out, "wb") if out else subprocess.DEVNULL, stderr=open(told, "wb"))
    _, status, used = os.wait4(child.pid, 0)
    print(json.dumps([time.perf_counter() - start, used.ru_utime + used.ru_stime, used.ru_maxrss / 1024, status]), flush=True)
"""
runner = subprocess.Popen([sys.executable, "-S", "-c", RUNNER], stdin=subprocess.PIPE, stdout=subprocess.PIPE, text=True)


def started(words, given=None, out=None):
    """Wall and processor seconds of a run, its peak memory in MiB, and its report."""
    runner.stdin.write(json.dumps([words, given, out, f"{work}/told"]) + "\n")
    runner.stdin.flush()
    wall, spent, memory, status = json.loads(runner.stdout.readline())
    told = open(f"{work}/told", errors="replace").read().strip()
    assert status == 0, (words, status, told)
    return wall, spent, memory, told


SCHEMA = b"[class, expver, date, time [centre, type, levtype [param, step, levelist?]]]"
GIVEN = ["--with", "class=od,expver=0001"]
WORKERS = (1, 2, 4, 8)


def best(words, given=None, made=True):
    found = None
    for _ in range(repeats):
        shutil.rmtree(f"{work}/store", ignore_errors=True)
        if made:
            subprocess.run([fdb, "create", f"{work}/store"], input=SCHEMA, check=True, capture_output=True)
        one = started(words, given)
        found = one if found is None or one[0] < found[0] else found
    return found


def table(title, count, octets, words, given=None, made=True):
    print(f"{title}: {count} messages, {octets / 1e6:.1f} MB")
    print(f"{'workers':>8}{'wall s':>9}{'processor s':>13}{'messages/s':>12}{'MB/s':>8}{'peak MB':>9}{'times':>7}")
    first = None
    for workers in WORKERS:
        wall, spent, peak, told = best([*words, "--workers", str(workers)], given, made)
        first = first or wall
        print(f"{workers:8}{wall:9.3f}{spent:13.3f}{count / wall:12.0f}{octets / 1e6 / wall:8.1f}{peak:9.1f}{first / wall:7.2f}   {told}")


def stream(name, count, *size):
    path = f"{work}/{name}"
    with open(path, "wb") as out:
        for i in range(count):
            out.write(message(i, *size))
    return path, os.path.getsize(path)


path, octets = stream("small", small)
table("archive, small", small, octets, [fdb, "archive", f"{work}/store", *GIVEN], path)
path, octets = stream("large", large, 130_000)
table("archive, large", large, octets, [fdb, "archive", f"{work}/store", *GIVEN], path)
table("trial", tried, 183 * tried, [fdb, "trial", f"{work}/store", str(tried)], made=False)
tools = [shutil.which(tool) for tool in ("fdb-hammer", "fdb-write", "grib_set")]
if None in tools:
    print("fdb-hammer, fdb-write and grib_set aren't all installed here")
    sys.exit()
root, names = f"{work}/root5", "levelist: Double;\nparam: Param;\nstep: Step;\ndate: Date;\ntime: Time;\nnumber: Integer;\n"


def five(title, schema, words, count, octets):
    """The least of runs of a tool of FDB5 over a root of its own."""
    open(f"{work}/schema5", "w").write(names + schema)
    open(f"{work}/config5.yaml", "w").write(f"---\ntype: local\nengine: toc\nschema: {work}/schema5\nspaces:\n- handler: Default\n  roots:\n  - path: {root}\n")
    found = None
    for _ in range(repeats):
        shutil.rmtree(root, ignore_errors=True)
        os.mkdir(root)
        one = started(["env", f"FDB5_CONFIG_FILE={work}/config5.yaml", *words])
        found = one if found is None or one[0] < found[0] else found
    wall, spent, peak, _ = found
    print(f"{title}: {count} messages, {octets / 1e6:.1f} MB: {wall:.3f} s, {spent:.3f} processor s, {count / wall:.0f} messages/s, {octets / 1e6 / wall:.1f} MB/s, {peak:.1f} MB")


plain = "[ date, time\n  [ levtype\n    [ param, step, levelist ]]]\n"
for name, count in (("small", small), ("large", large)):
    five(f"fdb-write, {name}", plain, ["fdb-write", f"{work}/{name}"], count, os.path.getsize(f"{work}/{name}"))
open(f"{work}/plain.grib", "wb").write(message(0))
subprocess.run(["grib_set", "-s", "setLocalDefinition=1,localDefinitionNumber=1,productDefinitionTemplateNumber=1,class=od,stream=enfo,type=pf,"
                "expver=0001,numberOfForecastsInEnsemble=50,perturbationNumber=1", f"{work}/plain.grib", f"{work}/template.grib"], check=True)
members = max(1, min(tried, 6500) // 650)
five("fdb-hammer", "[ class, expver, stream, date, time, domain?\n  [ type, levtype\n    [ param, step, levelist?, number? ]]]\n",
     ["fdb-hammer", "--expver=0001", "--class=od", "--nsteps=10", f"--nensembles={members}", "--nlevels=13", "--nparams=5", f"{work}/template.grib"],
     650 * members, 650 * members * os.path.getsize(f"{work}/template.grib"))
PY
