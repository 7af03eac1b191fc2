#!/usr/bin/env bash
# Whether the octets that were checked are the octets that are used. Each command that reads indexes or fields is stopped (SIGSTOP, by strace)
# behind each of its calls that opens such a file or reads it, in turn; while it stands, the file is changed, and it goes on:
#   - an index: the places of two records are exchanged; one bit of a key, which makes it another key;
#   - a field of more than 1 MiB: one octet near its end.
# The file is changed in its place, and in another run replaced by a changed one of the same name and length. `retrieve` of three keys and
# of all, by one and by four workers, `retrieve --over`, `list`, `axes`, `stats`, `cubes`, the gets of a session, and `purge` of a dataset
# that has a batch which the changed index would mask. With status 0 or 1 the answer has to be that of the files as they were; with another
# status nothing may have been given out that isn't part of that answer, and no file may be gone that the right purge keeps.
# STRIDE (1) takes every so-many-th call, FDB names the program, where it isn't to be built here, WORK a folder for what is made (/dev/shm,
# or /tmp). Takes strace. No part of the gate.
set -eu
top=$(cd "$(dirname "$0")/.." && pwd)
command -v strace > /dev/null || { echo "used.sh takes strace, which isn't here" >&2; exit 0; }
fdb=${FDB:-$top/fdb}
"$fdb" pick step=0 < /dev/null > /dev/null 2>&1 || true
[ "$fdb" != "$top/fdb" ] || fdb=$top/crates/fd_program/out/fd_program
memory=/dev/shm
[ -d "$memory" ] && [ -w "$memory" ] || memory=/tmp
work=$(mktemp -d "${WORK:-$memory}/fdb-used.XXXXXX")
trap 'rm -rf "$work"' EXIT
PYTHONDONTWRITEBYTECODE=1 python3 - "$fdb" "$work" "${STRIDE:-1}" "$top/bench" <<'PY'
import collections, os, re, shutil, signal, subprocess, sys, time

fdb, work, stride, bench = sys.argv[1], os.path.realpath(sys.argv[2]), int(sys.argv[3]), sys.argv[4]
sys.path.insert(0, bench)
from messages import LEVELS, message

SCHEMA = b"[class, expver, date, time [centre, type, levtype [param, step, levelist?]]]\n"
INDEX = "centre=98,type=1,levtype=100"
base, store = f"{work}/base", f"{work}/store"


def dataset_of(expver):
    return f"class=od,expver={expver},date=20240101,time=0000"


def key_at(level, step=0):
    """The number of the message with this level and step."""
    return 13 * step + LEVELS.index(level)


def datum_of(level, step=0):
    return f"param=0.0.0,step={6 * step},levelist={level}".encode()


def request_of(verb, expver, steps, levels):
    return f"{verb},class=od,expver={expver},date=20240101,time=00,{INDEX},param=0.0.0,step={steps},levelist={levels}"


def plainly(words, given=b""):
    ended = subprocess.run([fdb, *words], input=given, capture_output=True, cwd=work)
    return ended.returncode, ended.stdout, ended.stderr.decode(errors="replace")


def archived(expver, keys, octets=4):
    status, _, told = plainly(["archive", base, "--with", f"class=od,expver={expver}"], b"".join(message(key, octets) for key in keys))
    assert status == 0, told


def made_base():
    shutil.rmtree(base, ignore_errors=True)
    status, _, told = plainly(["create", base], SCHEMA)
    assert status == 0, told


def fresh():
    shutil.rmtree(store, ignore_errors=True)
    shutil.copytree(base, store)


def traced(words, given, inject=()):
    with open(f"{work}/given", "wb") as it:
        it.write(given)
    if os.path.exists(f"{work}/trace"):
        os.unlink(f"{work}/trace")
    return subprocess.Popen(["strace", "-f", "-y", "-qq", "-s", "0", "-e", "trace=openat,pread64,read,preadv,preadv2", *inject, "-o", f"{work}/trace", "--", fdb, *words],
                            stdin=open(f"{work}/given", "rb"), stdout=open(f"{work}/out", "wb"), stderr=open(f"{work}/told", "wb"), cwd=work)


def calls_of(words, given, file):
    """The calls of an undisturbed run that open this file or read it: their names and numbers among the calls of their thread, each once."""
    fresh()
    traced(words, given).wait()
    counted, found = collections.Counter(), []
    for line in open(f"{work}/trace", errors="replace"):
        parts = re.match(r"(\d+) +(\w+)\(", line)
        if parts:
            counted[parts[1], parts[2]] += 1
            call = (parts[2], counted[parts[1], parts[2]])
            if file in line and " = -1" not in line and call not in found:
                found.append(call)
    return found


def trace_text():
    try:
        return open(f"{work}/trace", errors="replace").read()
    except FileNotFoundError:
        return ""


def stopped_behind(words, given, call, change):
    """Runs a command that is stopped behind this call, and then does the change. Its status, output and report, and whether it stood."""
    fresh()
    child, stops, begun = traced(words, given, ["-e", f"inject={call[0]}:signal=STOP:when={call[1]}"]), 0, time.time()
    while child.poll() is None:
        text = trace_text()
        now = text.count("stopped by SIGSTOP")
        if now > stops:
            if stops == 0:
                change()
            stops = now
            os.kill(int(text.split(None, 1)[0]), signal.SIGCONT)
        if time.time() - begun > 60:
            child.kill()
        time.sleep(0.002)
    return child.returncode, open(f"{work}/out", "rb").read(), open(f"{work}/told", errors="replace").read(), stops > 0


def changed(path, edit, way):
    octets = bytearray(open(path, "rb").read())
    edit(octets)
    if way == "in its place":
        with open(path, "r+b") as file:
            file.write(octets)
    else:
        with open(f"{work}/other", "wb") as file:
            file.write(octets)
        os.replace(f"{work}/other", path)


def places_exchanged(octets):
    """Two records get each other's place."""
    first, second = (octets.index(datum_of(level) + bytes(2)) + len(datum_of(level)) for level in (60000, 85000))
    octets[first:first + 8], octets[second:second + 8] = octets[second:second + 8], octets[first:first + 8]


def bit_of_a_key(octets):
    """`levelist=60000` becomes `levelist=70000`."""
    octets[octets.index(datum_of(60000) + bytes(2)) + len(datum_of(60000)) - 5] ^= 1


def octet_of_a_field(octets):
    octets[-60_000] ^= 0x10


def pieces(octets):
    """The messages of an output, the last one perhaps cut."""
    found, at = [], 0
    while at < len(octets):
        length = int.from_bytes(octets[at + 8:at + 16], "big") if octets[at:at + 4] == b"GRIB" else 0
        length = length or len(octets) - at
        found.append(octets[at:at + length])
        at += length
    return found


def is_part(out, right, is_text):
    """Of a text a front; of messages some of them, in their order, and a front of one more."""
    if is_text:
        return right.startswith(out)
    rest = iter(pieces(right))
    return all(any(due.startswith(piece) for due in rest) for piece in pieces(out))


class Case:
    """A command, what it reads, the file that is changed, and how."""

    def __init__(self, name, words, given, file, edits, is_text=False):
        self.name, self.words, self.given, self.file, self.edits, self.is_text = name, words, given, file, edits, is_text

    def files(self):
        return sorted(os.path.relpath(os.path.join(at, name), store) for at, _, names in os.walk(store) for name in names if re.fullmatch(r"\d+-\d+\.\w+", name))

    def judge(self, status, out, told, right, kept):
        """Why the answer isn't right, or None."""
        if status in (0, 1):
            if (status, out, told) != right[:3]:
                return f"status {status}, other octets than before" if out != right[1] else f"status {status}, another report: {' / '.join(told.split(chr(10)))[-100:]}"
            gone = [file for file in kept if file not in self.files()]
            return f"status {status}, and {gone} are gone" if gone else None
        if status not in (6, 8):
            return f"status {status}: {told.strip()[-100:]}"
        if not is_part(out, right[1], self.is_text):
            return f"status {status}, and other octets were given out"
        gone = [file for file in kept if file not in self.files()]
        return f"status {status}, and {gone} are gone" if gone else None

    def run(self):
        calls = calls_of(self.words, self.given, self.file)
        fresh()
        right = plainly(self.words, self.given)
        kept = self.files()
        tried, wrong, ends = 0, [], collections.Counter()
        for call in calls[::stride]:
            for edit in self.edits:
                for way in ("in its place", "replaced"):
                    status, out, told, stood = stopped_behind(self.words, self.given, call, lambda: changed(f"{store}/{self.file}", edit, way))
                    tried += stood
                    ends[status] += 1
                    why = self.judge(status, out, told, right, kept)
                    if why:
                        wrong.append(f"{edit.__name__} {way} behind {call[0]} {call[1]} of {os.path.basename(self.file)}: {why}")
        counts = ", ".join(f"{status}: {count}" for status, count in sorted(ends.items(), key=str))
        print(f"{self.name}: {tried} changes ({counts}), {len(wrong)} wrong", flush=True)
        for line in wrong[:3]:
            print(f"  {line}", flush=True)
        return tried, len(wrong)


def cases():
    both, bit = (places_exchanged, bit_of_a_key), (bit_of_a_key,)
    # all steps and levels but those of 70000, so three pages, and a base with some of them
    made_base()
    archived("0001", [key for key in range(130) if LEVELS[key % 13] != 70000])
    archived("0002", [key_at(50000)])
    index = f"{dataset_of('0001')}/1-1.index"
    levels, all_steps, all_levels = "85000/60000/70000", "0/to/54/by/6", "/".join(map(str, LEVELS))
    for name, request, more in (("retrieve 3", request_of("retrieve", "0001", 0, levels), []),
                                ("retrieve all", request_of("retrieve", "0001", all_steps, all_levels), []),
                                ("retrieve all by 4", request_of("retrieve", "0001", all_steps, all_levels), ["--workers", "4"]),
                                ("retrieve --over", request_of("retrieve", "0002", 0, f"50000/{levels}"), ["--over", "expver=0001"])):
        yield Case(name, ["retrieve", store, *more], f"{request}\n".encode(), index, both)
    for name in ("list", "axes", "cubes"):
        yield Case(name, [name, store], b"list,expver=0001,step=0", index, bit, True)
    yield Case("stats", ["stats", store], b"", index, bit, True)
    script = [f"dataset {dataset_of('0001')}", "lane r class=od,expver=0001"] + [request_of("get retrieve", "0001", 0, level) for level in (85000, 60000, 70000)]
    yield Case("session", ["session", store], "\n".join(script).encode() + b"\nmessages\n", index, both)
    # a batch with the key that the other's becomes, so that it would be masked
    made_base()
    archived("0001", [key_at(70000)])
    archived("0001", [key_at(60000), key_at(85000)])
    yield Case("purge", ["purge", store, dataset_of("0001")], b"", f"{dataset_of('0001')}/2-1.index", both)
    made_base()
    archived("0001", [key_at(60000), key_at(85000)])
    archived("0001", [key_at(70000), key_at(85000)])
    yield Case("purge, the older one's", ["purge", store, dataset_of("0001")], b"", f"{dataset_of('0001')}/1-1.index", both)
    # a long field
    made_base()
    archived("0001", [key_at(60000)], 1_150_000)
    archived("0002", [key_at(85000)])
    fields = f"{dataset_of('0001')}/1-1.fields"
    yield Case("retrieve of 1.1 MB", ["retrieve", store], f"{request_of('retrieve', '0001', 0, 60000)}\n".encode(), fields, [octet_of_a_field])
    yield Case("--over of 1.1 MB", ["retrieve", store, "--over", "expver=0001"], f"{request_of('retrieve', '0002', 0, 60000)}\n".encode(), fields, [octet_of_a_field])
    script = [f"dataset {dataset_of('0001')}", "lane r class=od,expver=0001", request_of("get retrieve", "0001", 0, 60000)]
    yield Case("session, 1.1 MB", ["session", store], "\n".join(script).encode() + b"\nmessages\n", fields, [octet_of_a_field])


total, bad, since = 0, 0, time.time()
for case in cases():
    tried, wrong = case.run()
    total, bad = total + tried, bad + wrong
print(f"{total} changes between two calls of a command, {bad} wrong, {time.time() - since:.0f} s")
sys.exit(bad > 0)
PY
