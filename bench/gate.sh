#!/usr/bin/env bash
# What the gate costs: runs `rt ci` from nothing on a clean clone of what is committed, samples the processor time of what it runs,
# and prints one table, in processor minutes: the proofs, the proofs of the tests, the wrong bodies, the programs (what compiles and
# links them and the tests, and their runs), of the dearest CRATES (10), of the others, and of all. Then it says whether the wrong
# bodies took at most a quarter of the proofs, those of the tests among them. It says most on an idle machine. Where it is stopped (by an
# interrupt), it prints what there was until then. FUNCTIONS, where it is given, is how many of the functions to print whose proofs
# took longest, in seconds of the clock, where the prover keeps the times of what it checks. BUDGET, where it is given, is the number of
# processor minutes that may not be passed. LOG is a file for what `rt ci` prints. The script ends with 1 where a bound is passed,
# and with 2 where it was stopped. No part of the gate.
set -u
top=$(cd "$(dirname "$0")/.." && pwd)
work=$(mktemp -d)
log=${LOG:-$work/log}
trap 'rm -rf "$work"' EXIT
trap : INT TERM
git clone -q "$top" "$work/fdb" || exit 1
# (a kit that keeps proofs between its runs has `--anew` for a run without them; one without that word keeps none)
anew=$(rt help 2>&1 | grep -q -e --anew && echo --anew || true)
(cd "$work/fdb" && exec rt ci $anew) > "$log" 2>&1 &
gate=$!
python3 - "$log" "$gate" "${CRATES:-10}" "${FUNCTIONS:-0}" "${BUDGET:-0}" <<'PY'
import collections, glob, os, re, signal, sys, tempfile, time

log, gate, dearest, most, budget = sys.argv[1], *map(int, sys.argv[2:5]), float(sys.argv[5])
stopped = []
for number in (signal.SIGINT, signal.SIGTERM):
    signal.signal(number, lambda *_: stopped.append(True))
tick = os.sysconf("SC_CLK_TCK")
kinds = ["proofs", "tests", "bodies", "programs"]
seen = {}
checked = collections.defaultdict(dict)


def parents():
    found = {}
    for pid in filter(str.isdigit, os.listdir("/proc")):
        try:
            found[int(pid)] = int(open(f"/proc/{pid}/stat").read().rsplit(")", 1)[1].split()[1])
        except (OSError, IndexError):
            pass
    return found


def below(pid, parent):
    while pid in parent:
        pid = parent[pid]
        if pid == gate:
            return True
    return False


# A run of the prover with `--test` proves tests, one in a copy of a crate tries a wrong body, one that takes a crate as checked
# compiles a program, and any other proves a crate. What is no run of the prover links, or is a program or a test that is run.
def kind_of(pid, words):
    if not words[0].endswith("/rattle") or "--crate-checked" in words:
        return "programs"
    if "--test" in words:
        return "tests"
    return "bodies" if "/rt-edit-" in os.readlink(f"/proc/{pid}/cwd") else "proofs"


def crate_of(pid, words):
    named = re.search(r"--crate-name (\S+)|crates/(\w+)/|out/(\w+?)(?:_tests)?(?:\.o)?(?:\s|$)", " ".join([*words, os.readlink(f"/proc/{pid}/cwd") + "/"]))
    return next(filter(None, named.groups())) if named else "?"


def alive():
    try:
        return open(f"/proc/{gate}/stat").read().rsplit(")", 1)[1].split()[0] != "Z"
    except OSError:
        return False


# What a run of the prover has checked so far, with the times: it keeps a file for each part of each function while it runs.
def look_into(pid, crate, kind):
    for folder in glob.glob(f"{tempfile.gettempdir()}/rattle-logic-built-locked-{pid}-*"):
        for place in (folder, f"{folder}/records"):
            try:
                for entry in os.scandir(place):
                    checked[(crate, kind)].setdefault(entry.name, entry.stat().st_mtime)
            except OSError:
                pass


# The seconds that lie between a part and the one that was checked before it are the function's.
def of_functions():
    took = collections.Counter()
    for (crate, kind), parts in checked.items():
        before = None
        for moment, name in sorted((moment, name) for name, moment in parts.items()):
            named = re.match(r"Rattle-?\.?\w+-proofs\.(.*)\.\w+?(\.decls)?\.oantt$", name)
            if named and before is not None:
                took[f"{crate}::{named.group(1).replace('.', '::')}" + (" (tests)" if kind == "tests" else "")] += moment - before
            before = moment
    return took


# Notes the processor time so far of all that the gate runs now.
def sample(is_look):
    parent = parents()
    for pid in parent:
        try:
            words = open(f"/proc/{pid}/cmdline").read().rstrip("\0").split("\0")
            if not below(pid, parent) or any(it.endswith("/rt") for it in words[:3]):
                continue
            fields = open(f"/proc/{pid}/stat").read().rsplit(")", 1)[1].split()
            crate, kind = crate_of(pid, words), kind_of(pid, words)
        except OSError:
            continue
        seen[(pid, fields[19])] = (crate, kind, (int(fields[11]) + int(fields[12])) / tick)
        if is_look and kind in ("proofs", "tests"):
            look_into(pid, crate, kind)


def row_of(name, spent):
    parts = [spent[kind] / 60 for kind in kinds]
    return f"{name:18}" + "".join(f"{part:10.1f}" for part in [*parts, sum(parts)])


start, looked = time.time(), 0
while alive() and not stopped:
    is_look = most > 0 and time.time() - looked > 5
    looked = time.time() if is_look else looked
    sample(is_look)
    time.sleep(0.5)
if stopped:
    try:
        os.kill(gate, signal.SIGTERM)
    except OSError:
        pass

spent = collections.defaultdict(collections.Counter)
for crate, kind, seconds in seen.values():
    spent[crate][kind] += seconds
rows = sorted(spent.items(), key=lambda item: -sum(item[1].values()))
print(f"{'':18}" + "".join(f"{kind:>10}" for kind in [*kinds, "sum"]) + "   (processor minutes)")
for crate, row in rows[:dearest]:
    print(row_of(crate, row))
print(row_of(f"{len(rows[dearest:])} others", sum((row for _, row in rows[dearest:]), collections.Counter())))
whole = sum((row for _, row in rows), collections.Counter())
print(row_of("all", whole))
for name, seconds in of_functions().most_common(most):
    print(f"{seconds:8.0f} s  {name}")
last = [line for line in open(log, errors="replace").read().splitlines() if line][-1:]
minutes = sum(whole.values()) / 60
print(f"{minutes:.0f} processor minutes in {(time.time() - start) / 60:.0f} minutes; "
      f"{'stopped: not the whole gate' if stopped else last[0] if last else 'no last line'}")
proofs = whole["proofs"] + whole["tests"]
is_over = whole["bodies"] > proofs / 4
print(f"the wrong bodies took {'MORE THAN' if is_over else 'at most'} a quarter of the proofs{' so far' if stopped else ''}: "
      f"{whole['bodies'] / 60:.1f} of {proofs / 60:.1f} minutes" + (f", {100 * whole['bodies'] / proofs:.0f} %" if proofs else ""))
sys.exit(2 if stopped else is_over or minutes > budget > 0)
PY
