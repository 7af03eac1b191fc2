#!/usr/bin/env bash
# Kills an archive over real files at random moments and opens what it left. One dataset holds 10,000 fields of an archive
# that ended well; a second archive of 50,000 fields is killed (kill -9); then all 60,000 are retrieved. What is found has to
# be the first fields that were sent, byte for byte: all of the first archive, and of the second whole batches, which end where
# those of an archive that wasn't killed end.
# KILLS says how often (50). FDB names the program, where it isn't to be built here. No part of the gate.
set -eu
top=$(cd "$(dirname "$0")/.." && pwd)
fdb=${FDB:-$top/fdb}
"$fdb" pick step=0 < /dev/null > /dev/null 2>&1 || true
work=$(mktemp -d)
trap 'rm -rf "$work"' EXIT
python3 - "$fdb" "$work" "${KILLS:-50}" "$top/bench" <<'PY'
import pathlib, random, shutil, subprocess, sys, time

fdb, work, kills, bench = sys.argv[1], sys.argv[2], int(sys.argv[3]), sys.argv[4]
sys.path.insert(0, bench)
from messages import message, request

FIRST, ALL = 10_000, 60_000
sent = [message(i) for i in range(ALL)]
open(f"{work}/first", "wb").write(b"".join(sent[:FIRST]))
open(f"{work}/second", "wb").write(b"".join(sent[FIRST:]))
open(f"{work}/schema", "w").write("[class, expver [date, time, centre, type, levtype [param, step, levelist?]]]\n")
open(f"{work}/request", "w").write(request(ALL))
fronts, place = {0: 0}, 0
for number, octets in enumerate(sent, 1):
    place += len(octets)
    fronts[place] = number
whole = b"".join(sent)


def run(command, store, given, out=subprocess.DEVNULL, extra=()):
    with open(given, "rb") as source:
        return subprocess.run([fdb, command, store, *extra], stdin=source, stdout=out, stderr=subprocess.PIPE)


def archive(store, given):
    with open(given, "rb") as source:
        return subprocess.Popen([fdb, "archive", store, "--with", "class=od,expver=0001"], stdin=source,
                                stdout=subprocess.DEVNULL, stderr=subprocess.PIPE)


store = f"{work}/store"
assert run("create", store, f"{work}/schema").returncode == 0
ended = archive(store, f"{work}/first")
assert ended.wait() == 0, ended.stderr.read()
shutil.copytree(store, f"{work}/start")
clock = time.time()
assert archive(store, f"{work}/second").wait() == 0
span = time.time() - clock
# where a batch ends: the field files of the archive that wasn't killed, by writer and number
files = sorted((*map(int, path.stem.split("-")), path.stat().st_size) for path in pathlib.Path(store).glob("*/*.fields"))
ends, number = set(), 0
for _, _, size in files:
    # each field has its SHA-256 behind it
    fields, rest = divmod(size, len(sent[0]) + 32)
    assert rest == 0, size
    number += fields
    ends.add(number)
assert {FIRST, ALL} <= ends, ends
lost, torn, found_counts = 0, 0, []
random.seed()
for kill in range(kills):
    shutil.rmtree(store)
    shutil.copytree(f"{work}/start", store)
    victim = archive(store, f"{work}/second")
    time.sleep(random.random() * span)
    victim.kill()
    victim.wait()
    with open(f"{work}/out", "wb") as out:
        answer = run("retrieve", store, f"{work}/request", out)
    octets = open(f"{work}/out", "rb").read()
    found = fronts.get(len(octets), -1)
    lost += found < FIRST
    right = answer.returncode in (0, 1) and whole[:len(octets)] == octets
    torn += not (right and found in ends)
    found_counts.append(found)
print(f"{kills} kills: {lost} lost an acknowledged field, {torn} left something torn; "
      f"fields found: from {min(found_counts)} to {max(found_counts)}, {len(set(found_counts))} different numbers; {lost + torn} wrong")
sys.exit(lost + torn > 0)
PY
