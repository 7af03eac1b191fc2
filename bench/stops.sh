#!/usr/bin/env bash
# Each command that writes, stopped at each of its calls of the disk in turn, on a real file system: strace lets the n-th call of a kind,
# and every later one of that kind, fail with EIO, or kills the process at it. The n are counted for each thread. After each stop the store
# is opened, and what is found has to be:
#   - of a `create`: no schema, or the whole of it, and then the same create again makes the store, or says that it is there;
#   - of an `archive` by one worker into two datasets, one of which had fields: each dataset has all fields of its batch or none; by four
#     workers: each key has its old field or the new one, whole;
#   - of a session of two lanes: each lane's flushes in their order, each whole, and all that it was told to be listed; no put that was refused
#     (one behind a flush that failed, where its batch waits);
#   - of a `trial`: each of its datasets has all of its fields or none;
#   - of a `purge` of a dataset of three batches: the answers of before; of a `wipe`: these, or none in that dataset.
# What ended with 0 has to be there whole, and where a call failed that was noticed the status is 6.
# Then the stops behind which a command is run again: a `create` (in a folder that is there, and two folders further down), an `archive` into a
# new dataset, by one worker and by four, a `purge` and a `wipe` are stopped at each of their calls (killed, or a sync fails), the same command is run again, and an archive
# of other fields behind it; all three below strace. From the calls `power.py` makes what a power cut leaves then that keeps nothing but what
# syncs had made firm, and two trees that keep some more: all that was acknowledged has to be there. Behind the second `purge` or `wipe`, and behind a
# `purge` of what killed archives left, the dataset's folder has no file of a batch that its table doesn't list.
# PARTS (once again) names the halves that are run, STRIDE (1) takes every so-many-th n, FDB names the program, where it isn't to be built here. Takes strace. No part of the gate.
set -eu
top=$(cd "$(dirname "$0")/.." && pwd)
fdb=${FDB:-$top/fdb}
"$fdb" pick step=0 < /dev/null > /dev/null 2>&1 || true
[ "$fdb" != "$top/fdb" ] || fdb=$top/crates/fd_program/out/fd_program
command -v strace > /dev/null || { echo "stops.sh takes strace, which isn't here" >&2; exit 0; }
work=$(mktemp -d)
trap 'rm -rf "$work"' EXIT
PYTHONDONTWRITEBYTECODE=1 python3 - "$fdb" "$work" "${STRIDE:-1}" "$top/bench" "${PARTS:-once again}" <<'PY'
import collections, os, pathlib, random, re, shutil, subprocess, sys, time

fdb, work, stride, bench, parts = sys.argv[1], os.path.realpath(sys.argv[2]), int(sys.argv[3]), sys.argv[4], sys.argv[5]
sys.path.insert(0, bench)
import orphans, power
from sent import SCHEMA, Program, Scope, Sent, archive_words, dataset_of, listed_by, session_input

CALLS = "openat,mkdir,pwrite64,write,fsync,fdatasync,rename,renameat2,unlink,ftruncate,pread64,getdents64,flock"
program, scope = Program(fdb), Scope(3)
base, store = f"{work}/base", f"{work}/here/a/store"


def below_strace(words, given, injected=None):
    """Runs the program below strace; its status (None: killed), output, report and how many calls of each kind it made."""
    chosen = ["-e", f"inject={injected}"] if injected else []
    with open(f"{work}/given", "wb") as it:
        it.write(given)
    with open(f"{work}/given", "rb") as source:
        ended = subprocess.run(["strace", "-f", "-qq", "-s", "0", "-e", "signal=none", "-e", f"trace={CALLS}", *chosen, "-o", f"{work}/trace", "--", fdb, *words],
                               stdin=source, capture_output=True, timeout=120)
    made = collections.Counter()
    for line in open(f"{work}/trace", errors="replace"):
        called = re.match(r"(\d+)\s+(\w+)\(", line)
        if called:
            made[called[2], called[1]] += 1
    most = {}
    for (name, _), count in made.items():
        most[name] = max(most.get(name, 0), count)
    status = ended.returncode if ended.returncode >= 0 and ended.returncode < 128 else None
    return status, ended.stdout, ended.stderr.decode(errors="replace"), most


def fresh():
    """The store as it was before the command."""
    shutil.rmtree(f"{work}/here", ignore_errors=True)
    if os.path.exists(base):
        os.makedirs(f"{work}/here/a")
        shutil.copytree(base, store)


def made_base(*steps):
    """A store in which these commands have run."""
    shutil.rmtree(base, ignore_errors=True)
    status, _, told = program.run(["create", base], SCHEMA)
    assert status == 0, told
    for words, given in steps:
        status, _, told = program.run(words, given)
        assert status == 0, told


def as_sent(versions):
    """What is found where these are the last fields of the keys."""
    return {key: versions.get(key) for key in scope.keys}


class Case:
    """A command, what it reads, and what may be found once it was stopped: a function of the status, the report and what is found."""

    def __init__(self, name, words, given, judge):
        self.name, self.words, self.given, self.judge = name, words, given, judge


def judge_stored(old, new, parts):
    """Of each part of the keys all are new, or all old; at 0 all are new."""
    def judge(status, out, told, have):
        for part in parts:
            states = {have[key] == new[key] for key in part if old[key] != new[key]}
            if any(have[key] not in (old[key], new[key]) for key in part):
                return "a field is lost or torn"
            if len(states) > 1 or (status == 0 and False in states):
                return "part of a batch is there" if len(states) > 1 else "an acknowledged field isn't there"
        return None
    return judge


def archives(workers):
    sent = Sent()
    before = [sent.field(key) for key in range(20)]
    made_base((archive_words(base), b"".join(whole for whole, _ in before)))
    old = as_sent({key: sent.fields[key][-1] for key in range(20)})
    later = [sent.field(key) for key in [*range(10, 50), *range(650, 690)]]
    new = as_sent({key: versions[-1] for key, versions in sent.fields.items()})
    days = [[key for key in scope.keys if key // 650 == day] for day in range(3)]
    parts = days if workers == 1 else [[key] for key in scope.keys]
    return Case(f"archive by {workers}", archive_words(store, workers), b"".join(whole for whole, _ in later), judge_stored(old, new, parts))


def sessions():
    sent = Sent()
    before = [sent.field(key) for key in range(4)]
    made_base((archive_words(base), b"".join(whole for whole, _ in before)))
    sent.acknowledge([place for _, place in before])
    given, steps = session_input(sent, 0, 2, 3, 3, readers=1)

    def judge(status, out, told, have):
        now = sent.copy()
        now.acknowledge(listed_by(told, steps))
        lost, torn = now.judge(have)
        if lost or torn:
            return f"{lost} lost, {torn} torn"
        ends = dict(re.findall(r"^(w\d+ \d+) (put ok|put unlisted|put fault)", told, re.M))
        for lane, chain in steps.items():
            batches, batch = [], []
            for number, place in enumerate(chain, 1):
                end = ends.get(f"{lane} {number}", "put ok")
                if place is None:
                    batches.append(batch)
                    batch = []
                elif end == "put ok":
                    batch.append(place)
                elif have[place[0]] == sent.fields[place[0]][place[1]]:
                    return "a put that was refused is there"
            states = [{have[key] == sent.fields[key][at] for key, at in batch} for batch in batches if batch]
            if any(len(state) > 1 for state in states):
                return "part of a flush is there"
            if sorted(states, key=lambda state: False in state) != states or (status == 0 and {False} in states):
                return "a flush is there without one before it" if status else "a flush isn't there"
        return None
    return Case("session", ["session", store], given, judge)


def trials():
    made_base()
    sent = Sent()
    for key in range(130):
        sent.plain_field(key)
    old, new = as_sent({}), as_sent({key: sent.fields[key][-1] for key in range(130)})
    return Case("trial", ["trial", store, "130"], b"", judge_stored(old, new, [scope.keys]))


def reclaims(kind):
    sent, steps = Sent(), []
    for turn in range(3):
        steps.append((archive_words(base), b"".join(sent.field(key)[0] for key in [*range(20), 650 + turn])))
    made_base(*steps)
    old = as_sent({key: versions[-1] for key, versions in sent.fields.items()})
    new = {key: None if kind == "wipe" and key < 650 else field for key, field in old.items()}
    return Case(kind, [kind, store, dataset_of(0)], b"", judge_stored(old, new, [[key for key in scope.keys if key < 650], [key for key in scope.keys if key >= 650]]))


def creates():
    shutil.rmtree(base, ignore_errors=True)

    def judge(status, out, told, have):
        kept = pathlib.Path(store, "schema")
        whole = kept.exists() and kept.read_bytes() == SCHEMA
        if kept.exists() and not whole:
            return "part of a schema is there"
        if status == 0 and not whole:
            return "a created store has no schema"
        again, _, said = program.run(["create", store], SCHEMA)
        if (again, said) != ((3, "refused SchemaPresent\n") if whole else (0, "created\n")):
            return f"again: {again} {said.strip()[-80:]}"
        return None
    return Case("create", ["create", store], SCHEMA, judge)


def stops(case):
    """How many stops of the case were tried, how many of them had left all as before, and what was wrong."""
    fresh()
    status, _, told, most = below_strace(case.words, case.given)
    assert status == 0, (case.name, status, told)
    tried, wrong, ends = 0, [], collections.Counter()
    for call, count in sorted(most.items()):
        for how in (f"{call}:error=EIO:when={{}}+", f"{call}:error=ENOSPC:when={{}}", f"{call}:signal=SIGKILL:when={{}}"):
            for n in range(1, count + 2, stride):
                fresh()
                status, out, told, _ = below_strace(case.words, case.given, how.format(n))
                tried += 1
                ends[status] += 1
                if case.name == "create":
                    have, why = {}, None
                else:
                    have, why = program.found(store, scope, Sent())
                why = why or case.judge(status, out, told, have)
                if why:
                    wrong.append(f"{case.name} at {how.format(n)}, status {status} ({told.strip()[-100:]}): {why}")
    return tried, ends, wrong


CHANGES = ("openat", "mkdir", "rename", "unlink", "rmdir", "pwrite64", "write", "fsync", "fdatasync", "flock")


class Again:
    """A command that is stopped and run again: its words and input, what was done before it, and what is due once it has ended well."""

    def __init__(self, name, words, given, before, below="", acknowledges=(), wipes=False, second=None):
        self.name, self.words, self.given, self.before, self.below = name, words, given, before, below
        self.acknowledges, self.wipes, self.second = acknowledges, wipes, second or words


def left_over(folder):
    """The files of batches that the table of a dataset doesn't list."""
    table = os.path.join(folder, "toc")
    if not os.path.isdir(folder):
        return []
    batches = orphans.listed(open(table, "rb").read()) if os.path.exists(table) else set()
    return [name for name in os.listdir(folder) if orphans.NAME.fullmatch(name) and tuple(map(int, name.split(".")[0].split("-"))) not in batches]


def remembered(disk, line, words, given, injected=None):
    """Runs a command below strace and gives its calls to the disk. Its status (None: killed), its report and the next line's number."""
    with open(f"{work}/given", "wb") as it:
        it.write(given)
    chosen = ["-e", f"inject={injected}"] if injected else []
    with open(f"{work}/given", "rb") as source:
        ended = subprocess.run(["strace", "-f", "-xx", "-qq", "-s", "4000000", "-e", "signal=none", "-e", f"trace={power.CALLS},flock", *chosen, "-o", f"{work}/trace",
                                "--", fdb, *words], stdin=source, capture_output=True, timeout=120)
    calls, line = power.read_trace(f"{work}/trace", line)
    # a call at which the process was killed wasn't made
    disk.play([call for call in calls if call.name != "flock" and call.answer != "?"])
    status = ended.returncode if 0 <= ended.returncode < 128 else None
    return status, ended.stderr.decode(errors="replace"), line


def again_cases():
    """The commands that are stopped and run again. A store's name is put in place of STORE."""
    sent = Sent()
    yield Again("create", ["create", "STORE"], SCHEMA, [], ""), sent.copy()
    yield Again("create further down", ["create", "STORE"], SCHEMA, [], "a/b/"), sent.copy()
    first, given = [sent.field(650 + key) for key in range(10)], [sent.field(key) for key in range(20)]
    begun = [(["create", "STORE"], SCHEMA, []), (archive_words("STORE"), b"".join(whole for whole, _ in first), [place for _, place in first])]
    yield Again("archive", archive_words("STORE"), b"".join(whole for whole, _ in given), begun, "", [place for _, place in given]), sent.copy()
    # files of four writers are left, of which the next archive writes one anew
    yield Again("archive by 4", archive_words("STORE", 4), b"".join(whole for whole, _ in given), begun, "", [place for _, place in given],
                second=archive_words("STORE")), sent.copy()
    for turn in range(2):
        more = [sent.field(key) for key in [*range(20), 30 + turn]]
        begun.append((archive_words("STORE"), b"".join(whole for whole, _ in more), [place for _, place in more]))
    masking = [sent.field(key) for key in [*range(20), 30, 31]]
    begun.append((archive_words("STORE"), b"".join(whole for whole, _ in masking), [place for _, place in masking]))
    yield Again("purge", ["purge", "STORE", dataset_of(0)], b"", begun), sent.copy()
    yield Again("wipe", ["wipe", "STORE", dataset_of(0)], b"", begun, wipes=True), sent.copy()


def named(words, at):
    return [at if word == "STORE" else word for word in words]


def again_at(case, sent, injected, chance):
    """Stops the command so, runs it again, archives, and cuts the power. Why what is left isn't right, or None."""
    live = f"{work}/live"
    shutil.rmtree(live, ignore_errors=True)
    os.mkdir(live)
    at = f"{live}/{case.below}store"
    for words, given, places in case.before:
        status, _, told = program.run(named(words, at), given)
        assert status == 0, told
        sent.acknowledge(places)
    disk, line, wiped = power.Disk(live), 0, False
    status, told, line = remembered(disk, line, named(case.words, at), case.given, injected)
    if status == 0:
        sent.acknowledge(case.acknowledges)
    again, told, line = remembered(disk, line, named(case.second, at), case.given)
    is_there = told in ("refused SchemaPresent\n", "refused NoDataset\n")
    if again != 0 and not (again == 3 and is_there):
        return f"again: status {again}: {told.strip()[-100:]}"
    if again == 0:
        sent.acknowledge(case.acknowledges)
    if case.name in ("purge", "wipe"):
        files = left_over(f"{at}/{dataset_of(0)}")
        if files:
            return f"again: status {again}, and {len(files)} files are left that no table lists"
    if case.wipes:
        sent.least = {key: place for key, place in sent.least.items() if key >= 650}
    other = [sent.field(1300 + key) for key in range(10)]
    status, told, line = remembered(disk, line, archive_words(at), b"".join(whole for whole, _ in other))
    if status != 0:
        return f"an archive behind it: status {status}: {told.strip()[-100:]}"
    sent.acknowledge([place for _, place in other])
    unlike = list(disk.differs())
    if unlike:
        return f"the calls don't make what is there: {unlike[0]}"
    if case.name.startswith("archive"):
        status, _, told = program.run(["purge", at, dataset_of(0)])
        files = left_over(f"{at}/{dataset_of(0)}")
        if status != 0 or files:
            return f"a purge behind it: status {status}, and {len(files)} files are left that no table lists"
    disk.ready()
    for names, octets in (("drop", "drop"), ("some", "some"), ("drop", "any")):
        shutil.rmtree(f"{work}/state", ignore_errors=True)
        power.lay_out(disk.state(line + 1, chance, names, octets), f"{work}/state")
        have, why = program.found(f"{work}/state/{case.below}store", scope, sent)
        if have is None:
            return f"and a power cut that keeps names: {names}, octets: {octets}: {why}"
        lost, torn = sent.judge(have)
        if lost or torn:
            return f"and a power cut that keeps names: {names}, octets: {octets}: {lost} acknowledged fields lost, {torn} torn"
        if case.wipes and any(have[key] is not None for key in scope.keys if key < 650):
            return f"and a power cut that keeps names: {names}, octets: {octets}: what was wiped is there"
    return None


def agains(case, sent):
    """How many stops were tried behind which the command was run again, and what was wrong."""
    live = f"{work}/live"
    shutil.rmtree(live, ignore_errors=True)
    os.mkdir(live)
    at = f"{live}/{case.below}store"
    for words, given, _ in case.before:
        program.run(named(words, at), given)
    status, _, told, most = below_strace(named(case.words, at), case.given)
    assert status == 0, (case.name, status, told)
    tried, wrong, chance = 0, [], random.Random(case.name)
    for call, count in sorted(most.items()):
        hows = [f"{call}:signal=SIGKILL:when={{}}"] if call in CHANGES else []
        hows += [f"{call}:error=EIO:when={{}}"] if call in ("fsync", "fdatasync") else []
        for how in hows:
            for n in range(1, count + 1, stride):
                tried += 1
                why = again_at(case, sent.copy(), how.format(n), chance)
                if why:
                    wrong.append(f"{case.name} at {how.format(n)}, {why}")
    return tried, wrong


total, bad = 0, 0
for make in (creates, lambda: archives(1), lambda: archives(4), sessions, trials, lambda: reclaims("purge"), lambda: reclaims("wipe")) if "once" in parts else ():
    case, since = make(), time.time()
    tried, ends, wrong = stops(case)
    total, bad = total + tried, bad + len(wrong)
    told = ", ".join(f"{'killed' if status is None else status}: {count}" for status, count in sorted(ends.items(), key=str))
    print(f"{case.name}: {tried} stops ({told}), {len(wrong)} wrong, {time.time() - since:.0f} s", flush=True)
    for line in wrong[:8]:
        print("  " + line, flush=True)
for case, sent in again_cases() if "again" in parts else ():
    since = time.time()
    tried, wrong = agains(case, sent)
    total, bad = total + tried, bad + len(wrong)
    print(f"{case.name}, run again: {tried} stops, {len(wrong)} wrong, {time.time() - since:.0f} s", flush=True)
    for line in wrong[:8]:
        print("  " + line, flush=True)
print(f"{total} stops, {bad} wrong")
sys.exit(bad > 0)
PY
