#!/usr/bin/env bash
# What the library's SHA-256 alone reaches on the messages of the store, beside what `fdb archive` and `fdb retrieve` do with the
# same messages by one worker and by four, in one run. The first is a small program that hashes one message again and again, with
# another first octet each time; it is proved and built in a folder of its own, by LLVM as every program here. The others are
# timed over real files in WORK (a RAM disk, /dev/shm, where there is one). Prints medians of RUNS runs (5), and in brackets the least
# and the most. FDB names the program, where it isn't to be built here. No part of the gate.
set -eu
top=$(cd "$(dirname "$0")/.." && pwd)
fdb=${FDB:-$top/fdb}
"$fdb" pick step=0 < /dev/null > /dev/null 2>&1 || true
place=${WORK:-$([ -d /dev/shm ] && echo /dev/shm || echo /tmp)}
work=$(mktemp -d "$place/fdb-hash.XXXXXX")
trap 'rm -rf "$work"' EXIT
crate=$work/crates/fd_hash
mkdir -p "$crate/src"
echo "fd_hash: sha2" > "$work/crates.txt"
cat > "$crate/src/main.rt" <<'RT'
//! Times SHA-256 over messages of two lengths.
#![tactic(auto)]

use sha2::{Digest, Sha256};
use std::io;
use std::time::Instant;

const SMALL: usize = 183;

const LARGE: usize = 130_179;

/// Hashes the message so often, with another first octet each time: the nanoseconds that it took, and the digests' first
/// octets in one.
fn spent(rt: HostRuntime, message: &mut [u8], times: u32) -> io::Result<(u128, u8)> {
    let mut folded = 0;
    let start = Instant::now(&rt)?;
    for turn in 0..times {
        if let Some(first) = message.first_mut() {
            *first = (turn % 256) as u8;
        }
        let digest = Sha256::digest(&*message);
        folded ^= digest[0];
    }
    Ok((start.elapsed(&rt)?.as_nanos(), folded))
}

fn main(rt: HostRuntime) -> io::Result<()> {
    let mut message = Vec::new(rt.alloc());
    message.resize(SMALL, 42)?;
    let (nanoseconds, folded) = spent(rt, &mut message, 400_000)?;
    println!(rt; "{SMALL} {nanoseconds} 400000 {folded}")?;
    message.resize(LARGE, 42)?;
    let (nanoseconds, folded) = spent(rt, &mut message, 600)?;
    println!(rt; "{LARGE} {nanoseconds} 600 {folded}")?;
    Ok(())
}
RT
(cd "$crate" && rt run > "$work/out" 2> "$work/log") || { tail -n 20 "$work/log" >&2; exit 1; }
python3 - "$fdb" "$work" "${RUNS:-5}" "$top/bench" <<'PY'
import os, shutil, statistics, subprocess, sys, time

fdb, work, runs, bench = sys.argv[1], sys.argv[2], int(sys.argv[3]), sys.argv[4]
sys.path.insert(0, bench)
from messages import message, request

LEVELS = b"[class, expver [date, time, centre, type, levtype [param, step, levelist?]]]\n"
store, stream, asked, out = (f"{work}/{name}" for name in ("store", "stream", "asked", "out"))


def hashed(size):
    """Nanoseconds a message."""
    told = subprocess.run([f"{work}/crates/fd_hash/out/fd_hash"], check=True, capture_output=True, text=True).stdout
    rows = [[int(word) for word in line.split()] for line in told.splitlines()]
    return next(spent / count for length, spent, count, _ in rows if length == size)


def timed(words, given, wrong=()):
    start = time.perf_counter()
    done = subprocess.run([fdb, *words], stdin=open(given, "rb"), stdout=open(out, "wb"), stderr=subprocess.PIPE)
    spent = time.perf_counter() - start
    assert done.returncode in (0, *wrong), (words, done.stderr)
    return spent


def told(what, size, nanoseconds):
    per = sorted(1e9 / one for one in nanoseconds)
    middle = statistics.median(per)
    print(f"{what:24}{size:8}{middle:12.0f} messages/s{middle * size / 1e6:9.1f} MB/s   "
          f"({per[0] * size / 1e6:.1f} to {per[-1] * size / 1e6:.1f})")


for count, octets in ((100_000, 4), (1_000, 130_000)):
    size = len(message(0, octets))
    with open(stream, "wb") as file:
        for i in range(count):
            file.write(message(i, octets))
    open(asked, "w").write(request(count))
    times = {}
    for _ in range(runs):
        times.setdefault("SHA-256 alone", []).append(hashed(size))
        for workers in ("1", "4"):
            shutil.rmtree(store, ignore_errors=True)
            subprocess.run([fdb, "create", store], input=LEVELS, check=True, capture_output=True)
            spent = timed(["archive", store, "--with", "class=od,expver=0001", "--workers", workers], stream)
            times.setdefault(f"archive, {workers}", []).append(spent * 1e9 / count)
            spent = timed(["retrieve", store, "--workers", workers], asked, wrong=(1,))
            assert os.path.getsize(out) == os.path.getsize(stream)
            times.setdefault(f"retrieve, {workers}", []).append(spent * 1e9 / count)
    for what in times:
        told(what, size, times[what])
print(f"load {os.getloadavg()[0]:.1f}; {runs} runs")
PY
