#!/usr/bin/env bash
# What a changed octet on the disk does: over a store of 100 fields, of which the first 50 have no digests (kind 1) and the
# others have them (kind 2), one octet is changed at a time, of each index file, each field file and the table, every octet or FLIPS
# (2,000) of a file drawn by SEED (1), and all keys are retrieved by WORKERS (1). Prints for each file how often the damage was told,
# how often the answer was as before, how often keys were told as misses, and how often an octet was given out that was never archived.
# Ends with 1 where an octet of kind 2 was given out wrong, or where what was written behind a damage isn't the front of what was
# asked for. FDB names the program, where it isn't to be built here. No part of the gate.
set -eu
top=$(cd "$(dirname "$0")/.." && pwd)
fdb=${FDB:-$top/fdb}
"$fdb" pick step=0 < /dev/null > /dev/null 2>&1 || true
work=$(mktemp -d "${WORK:-/dev/shm}/fdb-flips.XXXXXX")
trap 'rm -rf "$work"' EXIT
python3 - "$fdb" "$work" "$top/bench" "${FLIPS:-2000}" "${SEED:-1}" "${WORKERS:-1}" <<'PY'
import collections, os, random, subprocess, sys

fdb, work, bench, most, seed, workers = sys.argv[1], sys.argv[2], sys.argv[3], int(sys.argv[4]), int(sys.argv[5]), sys.argv[6]
sys.path.insert(0, bench)
from messages import message, request

store, count = f"{work}/store", 100
sent = [message(i) for i in range(count)]
rules = b"[class, expver, date, time [centre, type, levtype [param, step, levelist?]]]"


def run(words, given):
    done = subprocess.run([fdb, *words], input=given, stdout=subprocess.PIPE, stderr=subprocess.PIPE)
    return done.returncode, done.stdout, done.stderr.decode(errors="replace").splitlines()


def archive(messages):
    status, _, report = run(["archive", store, "--with", "class=od,expver=0001"], b"".join(messages))
    assert status == 0, report


# The entries that stand are written as entries without a digest. Their files stay: behind each field stand 32 octets that no record names.
def without_digests(path):
    table = bytearray(open(path, "rb").read())
    for at in range(320, len(table) - 63, 64):
        if table[at] == 0x4F:
            table[at + 1] = 1
            table[at + 30:at + 64] = bytes(34)
    open(path, "wb").write(table)


assert run(["create", store], rules)[0] == 0
archive(sent[:50])
(dataset,) = (name for name in os.listdir(store) if os.path.isdir(f"{store}/{name}"))
folder = f"{store}/{dataset}"
without_digests(f"{folder}/toc")
archive(sent[50:])
kinds = {"1-1": 1, "2-1": 2}
asked = request(count).encode()
words = ["retrieve", store, "--workers", workers]
status, whole, report = run(words, asked)
missed = {line for line in report if line.startswith("miss ")}
assert status in (0, 1) and whole == b"".join(sent), report


# Whether these octets are fields that were archived, each at most once and in the order of the request.
def is_right(octets):
    at = 0
    for one in sent:
        if octets.startswith(one, at):
            at += len(one)
    return at == len(octets)


def judged():
    status, octets, report = run(words, asked)
    if status in (0, 1):
        if octets == whole:
            return "as before"
        misses = {line for line in report if line.startswith("miss ")}
        if is_right(octets) and len(octets) // len(sent[0]) == count - len(misses - missed):
            return "misses"
        return "WRONG"
    if not whole.startswith(octets) or len(octets) % len(sent[0]):
        return "TORN"
    return f"told by {status}"


chosen, bad = random.Random(seed), 0
for name in sorted(os.listdir(folder)):
    path = f"{folder}/{name}"
    kind = kinds.get(name.split(".")[0])
    octets = bytearray(open(path, "rb").read())
    if not octets or (kind is None and name != "toc"):
        continue
    places = range(len(octets)) if len(octets) <= most else sorted(chosen.sample(range(len(octets)), most))
    counts = collections.Counter()
    with open(path, "r+b", buffering=0) as file:
        for at in places:
            other = octets[at] ^ chosen.randrange(1, 256)
            os.pwrite(file.fileno(), bytes([other]), at)
            counts[judged()] += 1
            os.pwrite(file.fileno(), bytes([octets[at]]), at)
    what = "the table" if name == "toc" else f"{name.split('.')[1]} of kind {kind}"
    print(f"{what:18} {len(places):5} octets changed: " + ", ".join(f"{counts[key]} {key}" for key in sorted(counts)))
    bad += counts["TORN"] + (counts["WRONG"] if kind == 2 else 0)
assert run(words, asked)[1] == whole
print(f"{bad} wrong")
sys.exit(bad > 0)
PY
