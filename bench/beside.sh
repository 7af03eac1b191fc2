#!/usr/bin/env bash
# Readers of all kinds beside commands that write: `retrieve` of two keys and of 260 (by one and by four workers), `retrieve --over`, `list`,
# `axes`, `stats`, `cubes` and gets of a session, while one writer archives, purges, wipes and archives fields of other keys, all of one
# length, into the same two datasets, one command after another. Of each reader one call that opens a file, or reads one, is held back
# (strace, 2 to 150 ms), the first of its calls in one run, the second in another, and so on. Three stores in turn: batches of 130 small
# fields; tables of 70 entries, longer than one piece that is read; fields of more than 1 MiB.
# Each answer has to be that of one moment of each dataset that it reads: of one of the states that a command which was acknowledged, or was
# running, left between the reader's begin and its end. Status 6 is right, too; 8 is not, since no store is damaged, and neither is the
# field of another key, or another length or number. A command that writes ends with 0, or with 6 beside a session, which holds the lock,
# and is run again then; beside other readers it isn't refused.
# ANSWERS (5000) says how many, JOBS (3) how many readers run at once, SEED where the numbers begin, FDB names the program, where it isn't
# to be built here, WORK a folder for what is made (/dev/shm, or /tmp). Takes strace. No part of the gate.
set -eu
top=$(cd "$(dirname "$0")/.." && pwd)
command -v strace > /dev/null || { echo "beside.sh takes strace, which isn't here" >&2; exit 0; }
fdb=${FDB:-$top/fdb}
"$fdb" pick step=0 < /dev/null > /dev/null 2>&1 || true
[ "$fdb" != "$top/fdb" ] || fdb=$top/crates/fd_program/out/fd_program
memory=/dev/shm
[ -d "$memory" ] && [ -w "$memory" ] || memory=/tmp
work=$(mktemp -d "${WORK:-$memory}/fdb-beside.XXXXXX")
trap 'rm -rf "$work"' EXIT
PYTHONDONTWRITEBYTECODE=1 python3 - "$fdb" "$work" "${ANSWERS:-5000}" "${JOBS:-3}" "${SEED:-$RANDOM$RANDOM}" "$top/bench" <<'PY'
import collections, itertools, os, random, re, subprocess, sys, threading, time

fdb, work, answers, jobs, seed, bench = sys.argv[1], sys.argv[2], int(sys.argv[3]), int(sys.argv[4]), sys.argv[5], sys.argv[6]
sys.path.insert(0, bench)
from messages import LEVELS, PARAMETERS, message

SCHEMA = b"[class, expver, date, time [centre, type, levtype [param, step, levelist?]]]\n"
EXPVERS = ("0001", "0002")
INDEX = "centre=98,type=1,levtype=100"
HELD = (0.002, 0.01, 0.03, 0.06, 0.15)
print(f"seed {seed}")


def dataset_of(expver):
    return f"class=od,expver={expver},date=20240101,time=0000"


def datum_of(key):
    category, parameter = PARAMETERS[key // 130 % 5]
    return f"param=0.{category}.{parameter},step={6 * (key // 13 % 10)},levelist={LEVELS[key % 13]}"


def text_of(expver, key):
    return f"{dataset_of(expver)},{INDEX},{datum_of(key)}"


def request_of(verb, expver, keys):
    """The request for the keys, which are a product of parameters, steps and levels, and the keys in its order."""
    parts = [sorted({rule(key) for key in keys}) for rule in (lambda key: key // 130, lambda key: key // 13 % 10, lambda key: key % 13)]
    names = "/".join("0.%d.%d" % PARAMETERS[at] for at in parts[0])
    order = [130 * param + 13 * step + level for param in parts[0] for step in parts[1] for level in parts[2]]
    return (f"{verb},class=od,expver={expver},date=20240101,time=00,{INDEX.replace(' ', '')},param={names},"
            f"step={'/'.join(str(6 * step) for step in parts[1])},levelist={'/'.join(str(LEVELS[level]) for level in parts[2])}"), order


class Fields:
    """The fields that are sent, each with a number of its own in its packed octets: whose field some octets are."""

    def __init__(self, octets):
        self.octets, self.number, self.plain, self.owner = octets, 0, {}, {}

    def next(self, key):
        if key not in self.plain:
            self.plain[key] = message(key, self.octets)
        self.number += 1
        whole = self.plain[key]
        whole = whole[:-8] + self.number.to_bytes(4, "big") + whole[-4:]
        self.owner[whole[-8:-4], len(whole)] = key
        return whole

    def key_of(self, piece):
        return self.owner.get((piece[-8:-4], len(piece)))


class History:
    """The states of one dataset: its batches, each the fields of its keys, and from when to when it may have been the dataset's."""

    def __init__(self):
        self.states, self.open = [[(), 0.0, None]], []

    def now(self):
        return self.states[-1][0]

    def began(self, states):
        self.open = [[state, time.monotonic(), None] for state in states]

    def ended(self, well):
        if well:
            end = time.monotonic()
            self.states[-1][2] = end
            for state in self.open[:-1]:
                state[2] = end
            self.states += self.open
        self.open = []

    def between(self, first, last):
        """The different states that may have been the dataset's at some moment of these."""
        found = []
        for state, begun, ended in self.states:
            if begun <= last and (ended is None or ended >= first) and state not in found:
                found.append(state)
        return found


def run(words, given):
    ended = subprocess.run([fdb, *words], input=given, capture_output=True)
    return ended.returncode, ended.stdout, ended.stderr.decode(errors="replace")


class Writer(threading.Thread):
    """Commands that write, one after another, in both datasets in turn."""

    def __init__(self, store, fields, steps):
        super().__init__()
        self.store, self.fields, self.steps, self.stopped = store, fields, steps, threading.Event()
        self.history = {expver: History() for expver in EXPVERS}
        self.done, self.log, self.refused, self.wrong = 0, [], [], []
        self.turns = itertools.cycle([steps(self, expver, at) for at, expver in enumerate(EXPVERS)])

    def run(self):
        while not self.stopped.is_set() and len(self.wrong) < 20:
            next(next(self.turns))

    def command(self, expver, words, given, states):
        """Runs a command that makes these states, one after another, until it is acknowledged."""
        history, since = self.history[expver], time.monotonic()
        while not self.stopped.is_set():
            history.began(states)
            begun = time.monotonic()
            status, _, told = run(words, given)
            history.ended(status == 0)
            self.log.append((begun, time.monotonic(), f"{words[0]} {expver}" + (f" ({status})" if status else "")))
            if status == 0:
                self.done += 1
                return
            self.refused.append((begun, time.monotonic(), words[0]))
            if status != 6 or time.monotonic() - since > 60:
                self.wrong.append(f"{words[0]} ended with {status}: {told.strip()[-160:]}")
                return
            time.sleep(0.005)

    def between(self, first, last):
        """The commands that were run at some moment of these, each with the milliseconds from the first at which it began and ended."""
        said = [f"{name} {1000 * (begun - first):.0f} to {1000 * (ended - first):.0f}" for begun, ended, name in self.log if begun <= last and ended >= first]
        return ", ".join(said[:6] + (["..", *said[-4:]] if len(said) > 10 else said[6:]))

    def archive(self, expver, keys):
        batch = {key: self.fields.next(key) for key in keys}
        self.command(expver, ["archive", self.store, "--with", f"class=od,expver={expver}"], b"".join(batch.values()),
                     [(*self.history[expver].now(), batch)])

    def flushes(self, expver, keys):
        """A session of one lane that lists each field by itself."""
        batches = [{key: self.fields.next(key)} for key in keys]
        lines = [f"dataset {dataset_of(expver)}", f"lane w class=od,expver={expver}"]
        for number in range(1, len(batches) + 1):
            lines += [f"put {number}", "flush"]
        given = "\n".join(lines).encode() + b"\nmessages\n" + b"".join(field for batch in batches for field in batch.values())
        before = self.history[expver].now()
        self.command(expver, ["session", self.store], given, [(*before, *batches[:count]) for count in range(1, len(batches) + 1)])

    def purge(self, expver):
        before, seen, kept = self.history[expver].now(), set(), []
        for batch in reversed(before):
            if not batch.keys() <= seen:
                kept.insert(0, batch)
            seen |= batch.keys()
        self.command(expver, ["purge", self.store, dataset_of(expver)], b"", [tuple(kept)])

    def wipe(self, expver):
        self.command(expver, ["wipe", self.store, dataset_of(expver)], b"", [()])


def small_steps(writer, expver, at):
    """Batches of 130 fields of the one half of the keys, then of the other."""
    for turn in itertools.count(at):
        own = range(130 * (turn % 2), 130 * (turn % 2) + 130)
        for step in (lambda: writer.archive(expver, own), lambda: writer.archive(expver, [*own][:65]), lambda: writer.archive(expver, own),
                     lambda: writer.purge(expver), lambda: writer.wipe(expver)):
            yield step()


def table_steps(writer, expver, at):
    """A table of 70 entries, of which one after another is masked and purged; then all of them; then the dataset is wiped."""
    chance = random.Random(f"{seed}{expver}")
    for turn in itertools.count(at):
        own = [*range(130 * (turn % 2), 130 * (turn % 2) + 70)]
        yield writer.flushes(expver, own)
        for _ in range(3):
            yield writer.archive(expver, chance.sample(own[:58], chance.choice([1, 1, 2])))
            yield writer.purge(expver)
        yield writer.archive(expver, own)
        yield writer.purge(expver)
        yield writer.wipe(expver)


def large_steps(writer, expver, at):
    """Two fields of more than 1 MiB of some keys, then of others."""
    for turn in itertools.count(at):
        own = [0, 1] if turn % 2 == 0 else [130, 131]
        for step in (lambda: writer.archive(expver, own), lambda: writer.archive(expver, own), lambda: writer.purge(expver), lambda: writer.wipe(expver)):
            yield step()


def newest(state):
    found = {}
    for number, batch in enumerate(state, 1):
        for key, field in batch.items():
            found[key] = (field, number)
    return found


def told_fields(keys, have, expver):
    """What is written for these keys, and which of them are misses."""
    return b"".join(have[key] for key in keys if key in have), [text_of(expver, key) for key in keys if key not in have]


class Reader:
    """A command that reads: its words and input, the datasets that it reads, and whether an answer is that of some states of these."""

    def __init__(self, name, words, given, expvers, right, keys=(), expver=None):
        self.name, self.words, self.given, self.expvers, self.right, self.keys, self.expver = name, words, given, expvers, right, keys, expver
        self.calls = {}


def retrieves(name, store, expver, keys, *more):
    request, order = request_of("retrieve", expver, keys)

    def right(status, out, told, states):
        have = {key: field for key, (field, _) in newest(states[0]).items()}
        due, missed = told_fields(order, have, expver)
        return out == due and re.findall(r"^miss (.*)$", told, re.M) == missed and status == (1 if missed else 0)
    return Reader(name, ["retrieve", store, *more], request.encode() + b"\n", [expver], right, order, expver)


def overs(store, keys):
    over, under = EXPVERS
    request, order = request_of("retrieve", over, keys)

    def right(status, out, told, states):
        have = {key: field for state in (states[1], states[0]) for key, (field, _) in newest(state).items()}
        due, missed = told_fields(order, have, over)
        return out == due and re.findall(r"^miss (.*)$", told, re.M) == missed and status == (1 if missed else 0)
    return Reader("over", ["retrieve", store, "--over", f"expver={under}"], request.encode() + b"\n", [over, under], right, order, over)


def per_dataset(lines_of):
    """The answer is a text of lines, those of each dataset together and in the datasets' order."""
    def right(status, out, told, states):
        due = [line for expver, state in zip(EXPVERS, states) for line in lines_of(expver, newest(state), state)]
        return status == 0 and out.decode().splitlines() == due and told == ""
    return right


def list_lines(expver, have, state):
    rows = sorted((datum_of(key), len(field), number) for key, (field, number) in have.items())
    return [f"{dataset_of(expver)} {INDEX} {datum} {length} {number}" for datum, length, number in rows]


def axes_lines(expver, have, state):
    values = {}
    for key in have:
        for pair in datum_of(key).split(","):
            name, _, value = pair.partition("=")
            values.setdefault(name, set()).add(value)
    return [f"{dataset_of(expver)} {INDEX} {name}={'/'.join(sorted(values[name]))}" for name in sorted(values)]


def stats_right(status, out, told, states):
    due = []
    for expver, state in zip(EXPVERS, states):
        fields = [field for batch in state for field in batch.values()]
        if state:
            due.append(f"{dataset_of(expver)} entries {len(state)} fields {len(fields)} keys {len(newest(state))} bytes {sum(len(field) + 32 for field in fields)}")
    # a session may have founded an empty table
    return status == 0 and [line for line in out.decode().splitlines() if not line.endswith(" entries 0 fields 0 keys 0 bytes 0")] == due


def cubes_right(status, out, told, states):
    named = []
    for line in out.decode().splitlines():
        names, values = zip(*((pair.partition("=")[0], pair.partition("=")[2].split("/")) for pair in line.split(",")[1:]))
        named += [",".join(f"{name}={value}" for name, value in zip(names, some)) for some in itertools.product(*values)]
    due = [text_of(expver, key) for expver, state in zip(EXPVERS, states) for key in newest(state)]
    return status == 0 and sorted(named) == sorted(due)


def gets(store, expver, asked):
    lines = [f"dataset {dataset_of(expver)}", f"lane r class=od,expver={expver}"]
    orders = []
    for keys in asked:
        request, order = request_of("get retrieve", expver, keys)
        lines.append(request)
        orders.append(order)

    def right(status, out, told, states):
        have = {key: field for key, (field, _) in newest(states[0]).items()}
        due = [f"found {len(have[key])}" if key in have else "miss" for order in orders for key in order]
        return status == 0 and out == b"".join(have[key] for order in orders for key in order if key in have) \
            and re.findall(r"^(?:found \d+|miss)$", told, re.M) == due
    return Reader("session", ["session", store], "\n".join(lines).encode() + b"\nmessages\n", [expver], right, sum(orders, []), expver)


def readers_of(store, small):
    both = EXPVERS
    pairs = [[3, 133], [0, 1], [130, 131]] if small else [[0, 130], [0, 1]]
    found = [retrieves("retrieve 2", store, both[at % 2], keys) for at, keys in enumerate(pairs)]
    found += [overs(store, [3, 133] if small else [0, 130]), gets(store, both[0], pairs)]
    if small:
        found += [retrieves("retrieve 260", store, both[0], range(260)), retrieves("retrieve 260 by 4", store, both[1], range(260), "--workers", "4"),
                  overs(store, range(260))]
    found += [Reader("list", ["list", store], b"list", both, per_dataset(list_lines)), Reader("axes", ["axes", store], b"list", both, per_dataset(axes_lines)),
              Reader("stats", ["stats", store], b"", both, stats_right), Reader("cubes", ["cubes", store], b"list", both, cubes_right)]
    return found


def below_strace(reader, injected=(), trace="/dev/null"):
    words = ["strace", "-f", "--seccomp-bpf", "-qq", "-s", "0", "-e", "signal=none", "-e", "trace=openat,pread64", *injected, "-o", trace, "--", fdb, *reader.words]
    begun = time.monotonic()
    ended = subprocess.run(words, input=reader.given, capture_output=True)
    return begun, time.monotonic(), ended.returncode, ended.stdout, ended.stderr.decode(errors="replace")


def count_calls(reader):
    """How many calls of each kind one thread of the reader makes at most, and behind how many of these the store is met."""
    below_strace(reader, (), f"{work}/counted")
    made, before = collections.Counter(), {}
    for line in open(f"{work}/counted", errors="replace"):
        called = re.match(r"(\d+)\s+(\w+)\(", line)
        if called:
            made[called[2], called[1]] += 1
    for name in ("openat", "pread64"):
        counts = [count for (call, _), count in made.items() if call == name]
        reader.calls[name] = max(counts, default=0) + 2


def piece_of_another(reader, out, told, fields):
    """A field in the output that was sent for another key than the one whose place it has."""
    if not reader.keys or not out:
        return None
    missed, place = set(re.findall(r"^miss (.*)$", told, re.M)), 0
    for key in reader.keys:
        if reader.name != "session" and text_of(reader.expver, key) in missed:
            continue
        length = int.from_bytes(out[place + 8:place + 16], "big")
        owner = fields.key_of(out[place:place + length])
        if owner is not None and owner != key and reader.name != "session":
            return f"asked for {datum_of(key)}, got the field of {datum_of(owner)}"
        if owner is not None and owner not in reader.keys:
            return f"got the field of {datum_of(owner)}, which wasn't asked for"
        place += length
    return None


def judge(reader, begun, ended, status, out, told, writer):
    """Why the answer isn't right, or None."""
    if status == 6:
        return None
    if status not in (0, 1):
        return f"status {status}: {re.sub('damaged [^ ]+ ', 'damaged .. ', told.strip())[-200:]}"
    choices = [writer.history[expver].between(begun, ended) for expver in reader.expvers]
    if any(reader.right(status, out, told, states) for states in itertools.product(*choices)):
        return None
    other = piece_of_another(reader, out, told, writer.fields)
    return f"status {status}: {other or f'the answer is that of no moment ({len(out)} octets)'}"


def kind_of(why):
    """In a word or two what was wrong."""
    for kind in ("nothing beside", "beside readers alone", "the writer's", "got the field of", "no moment"):
        if kind in why:
            return kind
    damaged = re.search(r"damaged .. \w+", why)
    return damaged[0] if damaged else why.split(" ms, ")[-1].split("\n")[0][:40]


def trial(title, steps, octets, number):
    """So many answers beside one writer. How many were given, and what was wrong."""
    store, fields = f"{work}/{title}", Fields(octets)
    status, _, told = run(["create", store], SCHEMA)
    assert status == 0, told
    writer = Writer(store, fields, steps)
    readers = readers_of(store, octets == 4)
    # the calls are counted over datasets that have fields
    for expver in EXPVERS:
        writer.archive(expver, [0, 1, 130, 131] if octets != 4 else range(260))
    for reader in readers:
        count_calls(reader)
    for expver in EXPVERS:
        writer.wipe(expver)
    wrong = []
    # with nothing beside, after each of some commands
    for _ in range(12):
        next(next(writer.turns))
        for reader in readers:
            begun, ended, status, out, told = below_strace(reader)
            why = judge(reader, begun, ended, status, out, told, writer)
            if why or status == 6:
                wrong.append(f"{reader.name}, nothing beside, {why or 'status 6'}")
    turns, guard, taken = itertools.count(), threading.Lock(), []
    chance = random.Random(f"{seed}{title}")
    plans = []
    for at in range(number):
        reader, turn = readers[at % len(readers)], at // len(readers)
        call = "openat" if turn % 3 else "pread64"
        # the first ones more often: there the table is read
        most = reader.calls[call] if turn % 2 else min(reader.calls[call], 24)
        plans.append((reader, call, turn // 6 % most + 1 if turn // 6 < most else chance.randrange(most) + 1, chance.choice(HELD)))

    def read():
        while True:
            with guard:
                at = next(turns)
            if at >= number or not writer.is_alive():
                return
            reader, call, nth, held = plans[at]
            answer = below_strace(reader, ("-e", f"inject={call}:delay_enter={int(held * 1e6)}:when={nth}"))
            with guard:
                taken.append((reader, call, nth, held, answer))

    since = time.time()
    writer.start()
    threads = [threading.Thread(target=read) for _ in range(jobs)]
    for thread in threads:
        thread.start()
    for thread in threads:
        thread.join()
    writer.stopped.set()
    writer.join()
    wrong += [f"the writer's {why}" for why in writer.wrong]
    # what reads needs no lock, but for a session
    sessions = [answer[:2] for reader, _, _, _, answer in taken if reader.name == "session"]
    wrong += [f"the writer's {name} ended with 6 beside readers alone" for begun, ended, name in writer.refused
              if not any(first <= ended and last >= begun for first, last in sessions)]
    ends = collections.Counter()
    for reader, call, nth, held, (begun, ended, status, out, told) in taken:
        ends[status] += 1
        why = judge(reader, begun, ended, status, out, told, writer)
        if why:
            wrong.append(f"{reader.name}, {call} {nth} held for {1000 * held:.0f} ms, {why}\n    in {1000 * (ended - begun):.0f} ms; beside it: {writer.between(begun, ended)}")
    counts = ", ".join(f"{status}: {count}" for status, count in sorted(ends.items()))
    print(f"{title}: {len(taken)} answers ({counts}) beside {writer.done} commands that wrote, of which {len(writer.refused)} had to be run again; "
          f"{len(wrong)} wrong, {time.time() - since:.0f} s", flush=True)
    kinds = collections.Counter()
    for why in wrong:
        kind = kind_of(why)
        kinds[kind] += 1
        if kinds[kind] <= 2:
            print(f"  {why}", flush=True)
    if kinds:
        print("  " + ", ".join(f"{count} {kind}" for kind, count in kinds.most_common()), flush=True)
    return len(taken), ends[6], len(wrong)


parts = [trial(title, steps, octets, max(1, answers * share // 100)) for title, steps, octets, share in
         (("small", small_steps, 4, 55), ("tables", table_steps, 4, 25), ("large", large_steps, 1_200_000, 20))]
total, refused, bad = (sum(column) for column in zip(*parts))
print(f"{total} answers, {refused} of them status 6, {bad} wrong")
sys.exit(bad > 0)
PY
