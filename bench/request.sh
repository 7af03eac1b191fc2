#!/usr/bin/env bash
# Seconds for reading one text of a request, a partial request and a schema, at the largest size that is allowed, 65,536 bytes, and at half
# of it: the least of RUNS (15) runs of the program over an empty store, without what it takes for the shortest text. Linear time shows where twice the
# length takes at most about 2.3 times as long; beside other work on the machine the times say little. A few seconds. FDB names the program, where
# it isn't to be built here. No part of the gate.
set -eu
top=$(cd "$(dirname "$0")/.." && pwd)
fdb=${FDB:-$top/fdb}
"$fdb" pick step=0 < /dev/null > /dev/null 2>&1 || true
[ "$fdb" != "$top/fdb" ] || fdb=$top/crates/fd_program/out/fd_program
work=$(mktemp -d)
trap 'rm -rf "$work"' EXIT
python3 - "$fdb" "$work" "${RUNS:-15}" <<'PY'
import itertools, shutil, string, subprocess, sys, time

fdb, work, runs = sys.argv[1], sys.argv[2], int(sys.argv[3])
store = f"{work}/store"

def full(head, pieces, mark, size, tail=""):
    """The head, pieces with the mark between them, and the tail, filled up with blanks to the size."""
    text, room = [], size - len(head) - len(tail)
    for piece in pieces:
        need = len(piece) + (len(mark) if text else 0)
        if need > room:
            break
        text.append(piece)
        room -= need
    return head + mark.join(text) + " " * room + tail

def names(count):
    """So many names of one length."""
    letters = string.ascii_lowercase
    return ["".join(name) for name in itertools.islice(itertools.product(letters, repeat=3), count)]

def listed(size):
    return full("list,class=", itertools.cycle(["od", "rd", "1"]), "/", size)

def named(size):
    return full("list,", (name + "=1" for name in names(17576)), ",", size)

def dates(size):
    return full("list,date=", (f"20240{1 + i % 9}{10 + i % 19}" for i in itertools.count()), "/", size)

def schema(size):
    """256 rules of 32 names, or half as many, each with restrictions that fill the size."""
    rules = size // 256
    width = size // rules
    rule = names(32)
    head = "[" + ",".join(rule[:10]) + "[" + ",".join(rule[10:20]) + "[" + ",".join(rule[20:31]) + ","
    return "".join(full(head + rule[31] + "=", itertools.cycle(["a", "b"]), "/", width - 1, "]]]") + "\n" for _ in range(rules))

def seconds(words, text):
    """What the program takes for this text, which it may refuse behind its end, but not in it."""
    if words[0] == "create":
        shutil.rmtree(f"{work}/other", ignore_errors=True)
    begun = time.perf_counter()
    ended = subprocess.run([fdb, *words], input=text.encode(), capture_output=True)
    spent = time.perf_counter() - begun
    if ended.returncode not in (0, 1):
        sys.exit(f"not read: {text[:60]}: {ended.stderr.decode()[:120]}")
    return spent


subprocess.run([fdb, "create", store], input=b"[class [type [step, date?, levelist?]]]\n", capture_output=True, check=True)
shapes = [
    ("a request of one list", ["list", store], listed, "list"),
    ("a partial request of many names", ["list", store], named, "list"),
    ("a partial request of dates", ["list", store], dates, "list"),
    ("a schema of full rules", ["create", f"{work}/other"], schema, "[class[type[step]]]"),
]
for name, words, text, least in shapes:
    taken = [[seconds(words, given) for given in (least, text(32768), text(65536))] for _ in range(runs)]
    start, half, whole = map(min, zip(*taken))
    half, whole = half - start, whole - start
    print(f"{name:34} 32768 bytes {half:9.6f} s   65536 bytes {whole:9.6f} s   {whole / half:5.2f} times")
PY
