#!/usr/bin/env bash
# A storm over real files: commands that write, alone and by lanes side by side, are killed (kill -9) at random moments, one
# after another over the same store. After each kill the store is opened and every key retrieved, and each answer is compared
# byte by byte with what was sent:
#   - no field that a command acknowledged by ending well, or that an earlier opening found, is lost or older than that;
#   - a field of a killed archive is found only with all fields that came before it in the same dataset;
#   - each field that is found is one that was sent for its key, whole.
# A killed session has four lanes that write, each its own keys, and four that read while they do; the same is asked of each
# lane. Purges and wipes are killed too: a purge changes no answer, and a wipe takes a dataset's fields all or none, all where it
# ended well. One command in four isn't killed: its answer is held against what it wrote, and its fields count as acknowledged.
# SECONDS_LONG says how long (60), KILLS how many kills are enough (no limit), SEED where the numbers begin. FDB names the
# program, where it isn't to be built here. The store is made anew once its table has so many entries that openings are slow.
# No part of the gate.
set -eu
top=$(cd "$(dirname "$0")/.." && pwd)
fdb=${FDB:-$top/fdb}
"$fdb" pick step=0 < /dev/null > /dev/null 2>&1 || true
work=$(mktemp -d)
trap 'rm -rf "$work"' EXIT
python3 - "$fdb" "$work" "${SECONDS_LONG:-60}" "${KILLS:-1000000000}" "${SEED:-}" "$top/bench" <<'PY'
import pathlib, random, re, shutil, subprocess, sys, time

fdb, work, seconds, kills, seed, bench = *sys.argv[1:3], float(sys.argv[3]), int(sys.argv[4]), sys.argv[5], sys.argv[6]
sys.path.insert(0, bench)
from messages import message, request

KEYS, LANES, OFTEN = 1_300, 4, 12_000
chance = random.Random(seed or None)
plain = [message(i) for i in range(KEYS)]
numbers = {}
store = f"{work}/store"
DATASETS = [f"class=od,expver=0001,date=2024010{day},time=0000" for day in (1, 2)]
LEVELS = [100000, 92500, 85000, 70000, 60000, 50000, 40000, 30000, 25000, 20000, 15000, 10000, 5000]
PARAMETERS = ["0.0.0", "0.1.1", "0.2.2", "0.2.3", "0.3.5"]
open(f"{work}/schema", "w").write("[class, expver, date, time [centre, type, levtype [param, step, levelist?]]]\n")
open(f"{work}/request", "w").write(request(KEYS))
version = 0


def versioned(key):
    """The field of a key with four packed octets of its own, and the number in them."""
    global version
    version += 1
    whole = plain[key]
    return whole[:-8] + version.to_bytes(4, "big") + whole[-4:], version


def dataset_of(key):
    return key // 650


def retrieve_line(key):
    return (f"retrieve,class=od,expver=0001,date=2024010{key // 650 + 1},time=00,centre=98,type=1,levtype=100,"
            f"param={PARAMETERS[key // 130 % 5]},step={6 * (key // 13 % 10)},levelist={LEVELS[key % 13]}")


def run(words, given, limit=None):
    """Runs a command; kills it after `limit` seconds where one is given. Returns its status (None: killed), output, report."""
    with open(given, "rb") as source, open(f"{work}/out", "wb") as out, open(f"{work}/err", "wb") as err:
        begun = time.time()
        child = subprocess.Popen([fdb, *words], stdin=source, stdout=out, stderr=err)
        try:
            status = child.wait(limit)
        except subprocess.TimeoutExpired:
            child.kill()
            child.wait()
            status = None
        span = time.time() - begun
    return status, open(f"{work}/out", "rb").read(), open(f"{work}/err", "rb").read().decode(), span


def found():
    """What a retrieve of all keys answers: the number in each key's field, 0 at a miss."""
    status, octets, report, _ = run(["retrieve", store], f"{work}/request")
    if status not in (0, 1):
        return None, f"retrieve ended with {status}: {report[-300:]}"
    missed = set()
    for line in report.splitlines():
        if line.startswith("miss "):
            missed.add(line[5:])
    have, place = [], 0
    for key in range(KEYS):
        if missed and text_of(key) in missed:
            have.append(0)
            continue
        piece = octets[place:place + len(plain[key])]
        place += len(plain[key])
        if piece[:-8] != plain[key][:-8] or piece[-4:] != b"7777":
            return None, f"the field of key {key} is torn"
        have.append(int.from_bytes(piece[-8:-4], "big"))
    return (have, None) if place == len(octets) else (None, "more octets than fields")


def text_of(key):
    return (f"class=od,expver=0001,date=2024010{key // 650 + 1},time=0000,centre=98,type=1,levtype=100,"
            f"param={PARAMETERS[key // 130 % 5]},step={6 * (key // 13 % 10)},levelist={LEVELS[key % 13]}")


def archive_of(count):
    """An archive of so many fields of keys in random order, each at most once: its input, and its chains of fields, each of
    which may be found only with those before it."""
    keys = chance.sample(range(KEYS), min(count, KEYS))
    again = chance.sample(range(KEYS), min(max(count - KEYS, 0), KEYS))
    chains, octets = [[], []], []
    for key in keys + again:
        whole, number = versioned(key)
        chains[dataset_of(key)].append((key, number))
        octets.append(whole)
    open(f"{work}/input", "wb").write(b"".join(octets))
    return ["archive", store, "--with", "class=od,expver=0001"], chains


def session_of():
    """A session in one dataset: lanes that write each their own keys, and lanes that read."""
    dataset = chance.randrange(2)
    lines, octets, chains = [f"dataset {DATASETS[dataset]}"], [], []
    for lane in range(LANES):
        lines.append(f"lane w{lane} class=od,expver=0001")
        chain = []
        for turn in range(chance.randrange(2, 12)):
            for _ in range(chance.randrange(1, 8)):
                key = 650 * dataset + LANES * chance.randrange(650 // LANES) + lane
                whole, number = versioned(key)
                octets.append(whole)
                chain.append((key, number))
                lines.append(f"put {len(octets)}")
            lines.append("flush")
        chains.append(chain)
    for lane in range(LANES):
        lines.append(f"lane r{lane} class=od,expver=0001")
        for _ in range(20):
            lines.append(f"get {retrieve_line(650 * dataset + chance.randrange(650))}")
    lines.append("messages")
    open(f"{work}/input", "wb").write("\n".join(lines).encode() + b"\n" + b"".join(octets))
    return ["session", store], chains


def judge_wiped(before, dataset, have, ended):
    """Why what was found after a wipe isn't right, or None: the fields of the dataset are all gone, or none is."""
    gone = [0 if dataset_of(key) == dataset else number for key, number in enumerate(before)]
    if have == gone or (have == before and not ended):
        return None
    return "a wipe took some of the fields" if not ended else "a wipe that ended well left fields"


def judge(before, chains, have, ended):
    """Why what was found isn't right, or None. Along each chain the fields that are found end at one place: a field before it
    is its key's last one up to there, one behind it isn't found."""
    due = list(before)
    for chain in chains:
        places = {number: at for at, (_, number) in enumerate(chain)}
        reached = max((places[have[key]] for key, _ in chain if have[key] in places), default=-1)
        if ended and reached < len(chain) - 1 and chain:
            return "an acknowledged field is lost"
        for key, number in chain[:reached + 1]:
            due[key] = number
    for key in range(KEYS):
        if have[key] != due[key]:
            return f"key {key} has {have[key]} in place of {due[key]}"
    return None


def made_anew():
    shutil.rmtree(store, ignore_errors=True)
    status, _, report, _ = run(["create", store], f"{work}/schema")
    assert status == 0, report
    return [0] * KEYS


usage = subprocess.run([fdb], stdin=subprocess.DEVNULL, capture_output=True).stderr.decode()
has_sessions, has_purges = "session" in usage, "purge" in usage
state, spans = made_anew(), {"archive": 0.05, "session": 0.05, "purge": 0.02, "wipe": 0.02}
count = {"killed": 0, "ended": 0, "torn": 0, "stores": 1, "some": 0}
wrong = []
start = time.time()
while time.time() - start < seconds and count["killed"] < kills:
    kind = "session" if has_sessions and chance.random() < 0.5 else "archive"
    if has_purges and chance.random() < 0.3:
        kind = "wipe" if chance.random() < 0.2 else "purge"
    dataset = chance.randrange(2)
    if kind in ("purge", "wipe"):
        words, chains = [kind, store, DATASETS[dataset]], []
        open(f"{work}/input", "wb").close()
    else:
        words, chains = session_of() if kind == "session" else archive_of(chance.choice([10, 300, 3_000]))
    spared = chance.random() < 0.25
    status, _, report, span = run(words, f"{work}/input", None if spared else chance.random() * 1.2 * spans[kind])
    if status is None:
        count["killed"] += 1
    else:
        count["ended"] += 1
        spans[kind] = 0.8 * spans[kind] + 0.2 * span
        absent = kind in ("purge", "wipe") and report == "refused NoDataset\n"
        if status != 0 and not absent:
            wrong.append(f"{kind} ended with {status}: {report[-300:]}")
    have, why = found()
    if kind == "wipe":
        why = why or judge_wiped(state, dataset, have, status == 0)
    else:
        why = why or judge(state, chains, have, status == 0)
    if why:
        wrong.append(f"after {count['killed']} kills, {kind} {'ended' if status is not None else 'killed'}: {why}")
        shutil.copytree(store, f"/tmp/storm-{time.time_ns()}")
        state = made_anew()
        continue
    if status is None and have != state:
        count["some"] += 1
    state = have
    if sum(path.stat().st_size for path in pathlib.Path(store).glob("*/toc")) > 64 * OFTEN:
        state = made_anew()
        count["stores"] += 1
print(f"{count['killed']} kills and {count['ended']} commands that ended, over {count['stores']} stores, in "
      f"{time.time() - start:.0f} seconds; {count['some']} killed commands had listed something; {len(wrong)} answers were wrong")
for why in wrong[:10]:
    print(why)
sys.exit(bool(wrong))
PY
