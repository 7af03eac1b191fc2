#!/usr/bin/env bash
# Refuses memory to the program, one request in each run, and looks at what it answers and at what it leaves in its store. For
# each command a run counts the requests; then the first is refused, the second, and so on, until a run in which none is, or,
# where there are more than RUNS (400) of them, that many that lie apart evenly, the first hundred among them. Asked of each run:
#   - it ends with status 7 and the line `no memory`, or with the status, the output and the report that it has with memory;
#   - with 7 the output is a front of that output;
#   - afterwards, with memory, the store opens and lists, and has all that was acknowledged: what lay there before, and what the
#     run archived where it ended well or told that it was listed; each field that is found is the one that was sent;
#   - an archive of the same after that ends well, and then all is found.
# A request is refused by a library that is loaded before the C library, and counts only those of the program itself.
# SECONDS_LONG says how many seconds are enough (240), JOBS how many runs go side by side (1), ONLY a word of the titles of the
# commands that are run (all). FDB names the program, where it isn't to be built here. CC names the compiler of C (cc). Prints a line for each command and the sums, and ends with 1 at a wrong answer, with 2 where nothing was
# refused. Where NUMBERS has numbers ('150 900'), the program's tests are run unproved instead, with the request of that number
# refused to each test: a test that doesn't pass then has to tell `NoMemory`. No part of the gate.
set -eu
top=$(cd "$(dirname "$0")/.." && pwd)
if [ -n "${NUMBERS:-}" ]; then
  wrong=0
  for number in $NUMBERS; do
    told=$(cd "$top/crates/fd_command_tests" && rt try --test --fail-alloc "$number" 2>&1 || true)
    counts=$(awk '/^test .* \.\.\. ok/ { passed++ } /^test .* FAILED$/ { failed++ } /left: NoMemory|error: NoMemory/ { refused++ }
      END { print passed + 0, failed + 0, refused + 0 }' <<< "$told")
    read -r passed failed refused <<< "$counts"
    echo "request $number: $passed tests passed, $failed did not, $refused of these for want of memory"
    [ "$failed" = "$refused" ] && [ "$((passed + failed))" -gt 0 ] || wrong=1
  done
  exit "$wrong"
fi
fdb=${FDB:-$top/fdb}
"$fdb" pick step=0 < /dev/null > /dev/null 2>&1 || true
[ -n "${FDB:-}" ] || fdb=$top/crates/fd_program/out/fd_program
work=$(mktemp -d)
trap 'rm -rf "$work"' EXIT
cat > "$work/refuse.c" <<'C'
// Refuses the request for memory with the number REFUSE, of those that the program itself makes, and keeps in the file
// REFUSE_TOLD, as two numbers of 64 bits, how many there were and how many were refused. The file is mapped, since the program
// ends without the C library's last rites.
#define _GNU_SOURCE
#include <errno.h>
#include <fcntl.h>
#include <link.h>
#include <stdatomic.h>
#include <stdint.h>
#include <stdlib.h>
#include <sys/mman.h>
#include <unistd.h>

void *__libc_malloc(size_t);
void *__libc_realloc(void *, size_t);
static atomic_ulong own[2], *told = own;
static unsigned long number;
static uintptr_t from, to;

static int of_program(struct dl_phdr_info *info, size_t size, void *data) {
    for (int i = 0; i < info->dlpi_phnum; i++)
        if (info->dlpi_phdr[i].p_type == PT_LOAD) {
            uintptr_t start = info->dlpi_addr + info->dlpi_phdr[i].p_vaddr;
            if (!from || start < from) from = start;
            if (start + info->dlpi_phdr[i].p_memsz > to) to = start + info->dlpi_phdr[i].p_memsz;
        }
    return 1;
}

__attribute__((constructor)) static void begin(void) {
    const char *text = getenv("REFUSE"), *path = getenv("REFUSE_TOLD");
    int file = path ? open(path, O_CREAT | O_TRUNC | O_RDWR | O_CLOEXEC, 0600) : -1;
    number = text ? strtoul(text, NULL, 10) : 0;
    if (file >= 0 && !ftruncate(file, sizeof own)) {
        void *at = mmap(NULL, sizeof own, PROT_READ | PROT_WRITE, MAP_SHARED, file, 0);
        if (at != MAP_FAILED) told = at;
    }
    if (file >= 0) close(file);
    dl_iterate_phdr(of_program, NULL);
}

static int refuses(void *caller) {
    if ((uintptr_t)caller < from || (uintptr_t)caller >= to) return 0;
    if (atomic_fetch_add(told, 1) + 1 != number) return 0;
    atomic_fetch_add(told + 1, 1);
    errno = ENOMEM;
    return 1;
}

void *malloc(size_t size) {
    return refuses(__builtin_return_address(0)) ? NULL : __libc_malloc(size);
}

void *realloc(void *block, size_t size) {
    return refuses(__builtin_return_address(0)) ? NULL : __libc_realloc(block, size);
}
C
"${CC:-cc}" -O1 -shared -fPIC -o "$work/refuse.so" "$work/refuse.c"
python3 - "$fdb" "$work" "${RUNS:-400}" "${SECONDS_LONG:-240}" "$top/bench" "${JOBS:-1}" "${ONLY:-}" <<'PY'
import multiprocessing, os, pathlib, shutil, struct, subprocess, sys, time

fdb, work, most, seconds, bench = sys.argv[1], sys.argv[2], int(sys.argv[3]), float(sys.argv[4]), sys.argv[5]
jobs, only = int(sys.argv[6]), sys.argv[7]
sys.path.insert(0, bench)
from messages import message

SCHEMA = b"[class, expver, date, time [centre, type, levtype [param, step, levelist?]]]\n"
DATASET = "class=od,expver=0001,date=20240101,time=0000"
ONE = ("retrieve,class=od,expver=0001,date=20240101,time=00,centre=98,type=1,levtype=100,param=0.0.0,step=0,"
       "levelist=100000").encode()
MANY = ("retrieve,class=od,expver=0001,date=20240101,time=00,centre=98,type=1,levtype=100,param=0.0.0/0.2.2,"
        "step=0/to/36/by/6,levelist=100000/92500/85000/70000/60000/50000/40000/30000/25000/20000/15000/10000/5000").encode()
SCRIPT = f"dataset {DATASET}\nlane a class=od,expver=0001\nput 1\n".encode() + b"get " + ONE + b"\nflush\nget " + ONE + b"\nmessages\n"
BOTH = ONE + b"/92500"
FIELD, SECOND, STREAM = message(0), message(1), b"".join(message(i) for i in range(400))
WANTED = b"".join(message(i) for i in (*range(91), *range(260, 351)))
WITH = ["--with", "class=od,expver=0001"]
store, told = f"{work}/store", f"{work}/told"
faults, runs, refusals, begun = [], 0, 0, time.time()


def run(words, given, refuse=None):
    """Runs a command: its status, its output and its report, how often it asked for memory, and how often it was refused."""
    surroundings = dict(os.environ)
    if refuse is not None:
        surroundings.update(LD_PRELOAD=f"{work}/refuse.so", REFUSE=str(refuse), REFUSE_TOLD=told)
        pathlib.Path(told).unlink(missing_ok=True)
    try:
        ended = subprocess.run([fdb, *words], input=given, capture_output=True, timeout=60, env=surroundings)
    except subprocess.TimeoutExpired:
        return "none", b"", b"", 0, 0
    asked, refused = struct.unpack("QQ", open(told, "rb").read()) if refuse is not None and os.path.exists(told) else (0, 0)
    return ended.returncode, ended.stdout, ended.stderr, asked, refused


def laid(kept):
    """Puts a store there as it was kept."""
    shutil.rmtree(store, ignore_errors=True)
    if kept:
        shutil.copytree(kept, store)


def kept(name):
    shutil.copytree(store, f"{work}/{name}")
    return f"{work}/{name}"


def finds(request, whole):
    """What a retrieve finds with memory, which has to be some of these messages; or none at all where it doesn't end well."""
    status, output, report, _, _ = run(["retrieve", store], request)
    parts = [output[i:i + 183] for i in range(0, len(output), 183)]
    return parts if status in (0, 1) and all(part in whole for part in parts) else None


def sound(acknowledged, request, whole, stream):
    """What is wrong with the store: these messages were acknowledged, or (None) not even its schema was."""
    if acknowledged is None and not os.path.exists(f"{store}/schema"):
        status = run(["create", store], SCHEMA)[0]
        if status != 0:
            return f"no schema, and create ended with {status}"
    for words, given in ((["list", store], b"list,param=0.0.0"), (["stats", store], b"")):
        status, _, report, _, _ = run(words, given)
        if status != 0:
            return f"{words[0]} ended with {status}: {report!r}"
    found = finds(request, whole)
    if found is None or len(set(found)) != len(found):
        return "retrieve didn't end well, or found what nobody sent"
    lost = sum(field not in found for field in acknowledged or ())
    if lost:
        return f"{lost} acknowledged fields were lost"
    if stream:
        status = run(["archive", store, *WITH], stream)[0]
        if status != 0 or finds(request, whole) != whole:
            return f"archived again with {status}, and not all was found"
    return None


def numbers(count):
    """The requests that are refused, one a run: all of them and then one that isn't there, or some."""
    if count <= most:
        return range(1, count + 2)
    apart = max(1, (count - 100) // max(1, most - 100))
    return [*range(1, 101), *range(101, count + 1, apart)]


def part_tried(part, start, words, given, request, whole, stream, before, after, listed):
    """What becomes of one job's part of the runs, in a store of its own: how often memory was asked for, how many runs there were,
    how many requests were refused and how many runs ended with 7, the number at which it stopped, and what was wrong."""
    global store, told
    shared, store, told = store, f"{work}/store{part}", f"{work}/told{part}"
    words = [store if word == shared else word for word in words]
    laid(start)
    own = run(words, given, 0)
    tries, refusals, seven, stopped, wrong = 0, 0, 0, None, []
    for number in list(numbers(own[3]))[part::jobs]:
        if time.time() - begun > seconds:
            stopped = number
            break
        laid(start)
        status, output, report, _, refused = run(words, given, number)
        tries, refusals = tries + 1, refusals + refused
        is_seven = status == 7 and report.endswith(b"no memory\n") and own[1].startswith(output)
        is_own = (status, output, report) == own[:3]
        fault = None if is_seven or is_own else f"status {status}, report {report[-200:]!r}, {len(output)} bytes"
        seven += status == 7
        if fault is None and after is not None:
            acknowledged = after if is_own else listed(report) if listed else before
            fault = sound(acknowledged, request, list(whole), stream)
        if fault:
            wrong.append((number, fault))
    return own[3], tries, refusals, seven, stopped, wrong


def tried(title, start, words, given, request=ONE, whole=(FIELD,), stream=b"", before=None, after=None, listed=None):
    """Runs a command with each request refused. `before` and `after` are the messages that were acknowledged before it, and that
    are once it ended well, where it runs over a store; `listed` tells by its report what a refused run acknowledged."""
    global runs, refusals
    if only not in title:
        return
    ways = multiprocessing.get_context("fork")
    ends = [ways.Pipe(False) for _ in range(jobs)]

    def send(part):
        ends[part][1].send(part_tried(part, start, words, given, request, whole, stream, before, after, listed))

    children = [ways.Process(target=send, args=(part,)) for part in range(jobs)]
    for child in children:
        child.start()
    for _, sender in ends:
        sender.close()
    found = [receiver.recv() for receiver, _ in ends]
    for child in children:
        child.join()
    counts = sorted({part[0] for part in found})
    tries, refused, seven = (sum(part[n] for part in found) for n in (1, 2, 3))
    runs, refusals = runs + tries, refusals + refused
    wrong = sorted(fault for part in found for fault in part[5])
    faults.extend(f"{title}, request {number}: {fault}" for number, fault in wrong)
    for part in found:
        if part[4] is not None:
            print(f"  {title}: stopped before number {part[4]}, for want of time")
    print(f"{title}: {' or '.join(map(str, counts))} requests for memory, {tries} runs, {refused} refused, {seven} ended with 7, "
          f"{len(wrong)} wrong", flush=True)


none, found = [], [FIELD]
plain_many = [WANTED[i:i + 183] for i in range(0, len(WANTED), 183)]
tried("create", None, ["create", store], SCHEMA, stream=FIELD, after=none)
laid(None)
assert run(["create", store], SCHEMA)[0] == 0
empty = kept("empty")
tried("archive of one field", empty, ["archive", store, *WITH], FIELD, stream=FIELD, before=none, after=found)
laid(empty)
assert run(["archive", store, *WITH], FIELD)[0] == 0
one = kept("one")
tried("archive of a second field", one, ["archive", store, *WITH], SECOND, BOTH, (FIELD, SECOND), SECOND, before=found,
      after=[FIELD, SECOND])
tried("retrieve of one field", one, ["retrieve", store], ONE, before=found, after=found)
tried("retrieve by two workers", one, ["retrieve", store, "--workers", "2"], ONE, before=found, after=found)
tried("list", one, ["list", store], b"list,param=0.0.0", before=found, after=found)
tried("axes", one, ["axes", store], b"list,param=0.0.0", before=found, after=found)
tried("stats", one, ["stats", store], b"", before=found, after=found)
tried("session", empty, ["session", store], SCRIPT + FIELD, stream=FIELD, before=none, after=found,
      listed=lambda report: found if b"a 3 flush 1\n" in report else none)
tried("trial of one field", None, ["trial", store, "1"], b"", stream=FIELD, after=found)
tried("pick", None, ["pick", "step=0"], b"junk" + FIELD)
tried("describe", None, ["describe"], FIELD)
tried("values", None, ["values"], FIELD)
tried("generate", None, ["generate", "3"], b"")
tried("archive of 400 by four workers", empty, ["archive", store, *WITH, "--workers", "4"], STREAM, MANY, plain_many, STREAM,
      before=none, after=plain_many)
laid(empty)
assert run(["archive", store, *WITH, "--workers", "4"], STREAM)[0] == 0
many = kept("many")
tried("retrieve of 182 by four workers", many, ["retrieve", store, "--workers", "4"], MANY, MANY, plain_many,
      before=plain_many, after=plain_many)
print(f"{runs} runs, {refusals} requests refused, {len(faults)} wrong answers, {time.time() - begun:.0f} seconds")
for fault in faults[:20]:
    print(f"  {fault}")
sys.exit(1 if faults else 0 if refusals else 2)
PY
