#!/usr/bin/env bash
# Times a purge and a wipe over real files: a dataset of 60 batches of 1,000 fields of 183 octets, in which each field was written
# three times, so that 40 batches are masked. Prints the seconds of a purge, of a second one that has nothing to drop, and of a
# wipe; the octets and files of the dataset before and after; and, where strace is installed, how often each syncs. Retrieves all
# 20,000 fields before and after the purge and compares the octets. Beside it, where FDB5 is installed, its `fdb-purge` over the same fields.
# FDB names the program, where it isn't to be built here; WORK a folder on the file system to be measured. No part of the gate.
set -eu
top=$(cd "$(dirname "$0")/.." && pwd)
fdb=${FDB:-$top/fdb}
"$fdb" pick step=0 < /dev/null > /dev/null 2>&1 || true
work=$(mktemp -d "${WORK:-/tmp}/fdb-purge.XXXXXX")
trap 'rm -rf "$work"' EXIT
python3 - "$fdb" "$work" "$top/bench" <<'PY'
import os, re, shutil, subprocess, sys, time

fdb, work, bench = sys.argv[1:]
sys.path.insert(0, bench)
from messages import message, request

BATCHES, FIELDS, TIMES = 20, 1_000, 3
DATASET = "class=od,expver=0001"
store = f"{work}/store"
open(f"{work}/schema", "w").write("[class, expver [date, time, centre, type, levtype [param, step, levelist?]]]\n")
open(f"{work}/request", "w").write(request(BATCHES * FIELDS))


def run(words, given=None, out="/dev/null"):
    """Seconds of a run that may end with 0 or 1, and its report."""
    start = time.perf_counter()
    ended = subprocess.run(words, stdin=open(given, "rb") if given else subprocess.DEVNULL, stdout=open(out, "wb"), stderr=subprocess.PIPE)
    span = time.perf_counter() - start
    assert ended.returncode in (0, 1), (words, ended.returncode, ended.stderr[-300:])
    return span, ended.stderr.decode()


def filled():
    """Makes the store anew, with its 60 batches."""
    shutil.rmtree(store, ignore_errors=True)
    run([fdb, "create", store], f"{work}/schema")
    for turn in range(TIMES):
        for batch in range(BATCHES):
            given = f"{work}/batch{turn}-{batch}"
            if not os.path.exists(given):
                octets = [message(i) for i in range(batch * FIELDS, (batch + 1) * FIELDS)]
                octets = [whole[:-8] + (turn + 1).to_bytes(4, "big") + whole[-4:] for whole in octets]
                open(given, "wb").write(b"".join(octets))
            run([fdb, "archive", store, "--with", DATASET], given)


def size():
    """Octets and number of the dataset's files."""
    sizes = [entry.stat().st_size for entry in os.scandir(f"{store}/{DATASET}")]
    return f"{sum(sizes):,} octets in {len(sizes)} files"


def syncs(words):
    """How often a run syncs, by strace, or None."""
    if not shutil.which("strace"):
        return None
    run(["strace", "-f", "-c", "-e", "trace=fsync,fdatasync", "-o", f"{work}/strace", *words])
    return sum(int(m.group(1)) for m in re.finditer(r"^\s*[\d.]+\s+[\d.]+\s+\d+\s+(\d+)\s.*f(?:data)?sync", open(f"{work}/strace").read(), re.M))


def found():
    """All fields that are stored."""
    run([fdb, "retrieve", store], f"{work}/request", f"{work}/out")
    return open(f"{work}/out", "rb").read()


purge, wipe = [fdb, "purge", store, DATASET], [fdb, "wipe", store, DATASET]
filled()
before, fields = size(), found()
span, report = run(purge)
after = size()
assert found() == fields, "a field has changed"
again, none = run(purge)
print(f"purge: {span:.3f} s ({report.strip()}); before {before}, after {after}")
print(f"purge again: {again:.3f} s ({none.strip()})")
span, report = run(wipe)
print(f"wipe: {span:.3f} s ({report.strip()}); after {size()}")
if syncs([fdb, "stats", store]) is not None:
    filled()
    dropped, nothing, wiped = syncs(purge), syncs(purge), syncs(wipe)
    print(f"syncs: purge {dropped}, purge again {nothing}, wipe {wiped}")
FDB5 = all(shutil.which(tool) for tool in ("fdb-write", "fdb-purge"))
if FDB5:
    root, config = f"{work}/root5", f"{work}/config5.yaml"
    open(f"{work}/schema5", "w").write("param: Param;\nstep: Step;\ndate: Date;\ntime: Time;\nlevelist: Double;\n"
                                       "[ date, time\n  [ levtype\n    [ param, step, levelist ]]]\n")
    open(config, "w").write(f"---\ntype: local\nengine: toc\nschema: {work}/schema5\nspaces:\n- handler: Default\n  roots:\n  - path: {root}\n")
    os.mkdir(root)
    for turn in range(TIMES):
        for batch in range(BATCHES):
            run(["fdb-write", f"--config={config}", f"{work}/batch{turn}-{batch}"])
    def size5():
        sizes = [os.path.getsize(os.path.join(folder, name)) for folder, _, names in os.walk(root) for name in names]
        return f"{sum(sizes):,} octets in {len(sizes)} files"
    before = size5()
    span, _ = run(["fdb-purge", f"--config={config}", "--doit", "--ignore-no-data", "--minimum-keys=date", "date=20240101/to/20240131,time=0000"])
    print(f"FDB5 purge: {span:.3f} s; before {before}, after {size5()}")
PY
