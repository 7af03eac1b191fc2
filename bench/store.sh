#!/usr/bin/env bash
# Times the store over real files: archives and retrieves 10,000 messages of 183 octets and 1,000 of 130 KB, lists 100,000
# keys, and retrieves one key out of them. Beside it in the same run stands a small C program that makes the same writes,
# syncs and reads, and nothing else (no keys, no index, no checks), and, where FDB5 is installed, its `fdb-write`, `fdb-read` and
# `fdb-list` over the same messages, with a schema of the names that it takes from them. Prints medians of RUNS runs (5) with the
# start of the process, the ratio of the rates and the peak memory. FDB names the program, where it isn't to be built here; WORK a
# folder on the file system to be measured. No part of the gate.
set -eu
top=$(cd "$(dirname "$0")/.." && pwd)
fdb=${FDB:-$top/fdb}
"$fdb" pick step=0 < /dev/null > /dev/null 2>&1 || true
work=$(mktemp -d "${WORK:-/tmp}/fdb-store.XXXXXX")
trap 'rm -rf "$work"' EXIT
cat > "$work/peer.c" <<'C'
/* peer archive DIR FILE SIZE    batches of 2,048: two files made, a write a message, an index, five syncs
   peer retrieve DIR N SIZE      reads each message in pieces of 4,096 octets and writes them to standard output */
#define _GNU_SOURCE
#include <fcntl.h>
#include <stdio.h>
#include <stdlib.h>
#include <string.h>
#include <sys/stat.h>
#include <unistd.h>

static void die(const char *what) { perror(what); exit(1); }

static void put(const char *path, const char *bytes, size_t n, off_t at) {
    int file = open(path, O_WRONLY | O_CREAT | O_CLOEXEC, 0666);
    if (file < 0) die(path);
    while (n) {
        ssize_t done = pwrite(file, bytes, n, at);
        if (done <= 0) die("pwrite");
        bytes += done; n -= done; at += done;
    }
    close(file);
}

static void firm(const char *path) {
    int file = open(path, O_RDONLY | O_CLOEXEC);
    if (file < 0 || fsync(file)) die(path);
    close(file);
}

int main(int count, char **words) {
    static char page[1 << 20];
    char fields[4200], index[4200], table[4200];
    if (count < 5) return 2;
    const char *dir = words[2];
    long size = atol(words[4]);
    snprintf(table, sizeof table, "%s/toc", dir);
    if (!strcmp(words[1], "archive")) {
        FILE *in = fopen(words[3], "rb");
        char *message = malloc(size);
        if (!in || mkdir(dir, 0777)) die("start");
        put(table, page, 321, 0); firm(table); firm(dir);
        for (long batch = 1, more = 1; more; batch++) {
            long k = 0;
            snprintf(fields, sizeof fields, "%s/1-%ld.fields", dir, batch);
            snprintf(index, sizeof index, "%s/1-%ld.index", dir, batch);
            put(fields, page, 0, 0); put(index, page, 0, 0);
            for (off_t end = 0; k < 2048 && (more = fread(message, 1, size, in) == (size_t)size); k++, end += size)
                put(fields, message, size, end);
            if (!k) break;
            firm(fields); firm(dir);
            put(index, page, 24 + 4096 * ((k + 47) / 48), 0); firm(index);
            put(table, page, 64, 321 + 64 * (batch - 1)); firm(table);
            put(table, "O", 1, 320 + 64 * (batch - 1)); firm(table);
        }
        return 0;
    }
    char piece[4096];
    for (long i = 0, n = atol(words[3]); i < n; i++) {
        snprintf(fields, sizeof fields, "%s/1-%ld.fields", dir, i / 2048 + 1);
        off_t at = i % 2048 * size;
        for (long left = size; left;) {
            size_t part = left < 4096 ? left : 4096;
            int file = open(fields, O_RDONLY | O_CLOEXEC);
            if (file < 0 || pread(file, piece, part, at) != (ssize_t)part) die("pread");
            close(file);
            if (write(1, piece, part) != (ssize_t)part) die("write");
            at += part; left -= part;
        }
    }
    return 0;
}
C
cc -O2 -o "$work/peer" "$work/peer.c"
python3 - "$fdb" "$work" "${RUNS:-5}" "$top/bench" <<'PY'
import datetime, json, os, shutil, statistics, subprocess, sys, time

fdb, work, runs, bench = sys.argv[1], sys.argv[2], int(sys.argv[3]), sys.argv[4]
sys.path.insert(0, bench)
from messages import message, request

# A small process that starts the runs: what a process began with counts among its peak memory, and this one will be large.
RUNNER = """
import json, os, subprocess, sys, time
for line in sys.stdin:
    words, given, out, told = json.loads(line)
    start = time.perf_counter()
    child = subprocess.Popen(words, stdin=open(given, "rb") if given else subprocess.DEVNULL,
                             stdout=open(out, "wb") if out else subprocess.DEVNULL, stderr=open(told, "wb"))
    _, status, used = os.wait4(child.pid, 0)
    print(json.dumps([time.perf_counter() - start, used.ru_utime + used.ru_stime, used.ru_maxrss / 1024, status]), flush=True)
"""
runner = subprocess.Popen([sys.executable, "-S", "-c", RUNNER], stdin=subprocess.PIPE, stdout=subprocess.PIPE, text=True)


def started(words, given=None, out=None):
    """Wall and processor seconds of a run, its peak memory in MiB, and its report."""
    runner.stdin.write(json.dumps([words, given, out, f"{work}/told"]) + "\n")
    runner.stdin.flush()
    wall, spent, memory, status = json.loads(runner.stdout.readline())
    told = open(f"{work}/told", errors="replace").read().strip()
    assert status == 0, (words, status, told)
    return wall, spent, memory, told

LEVELS = "[class, expver [date, time, centre, type, levtype [param, step, levelist?]]]\n"
GIVEN = ["--with", "class=od,expver=0001"]
peak = 0


def timed(words, given=None, out=None):
    """Seconds of wall time, and of the processor; the most memory of all our runs is kept."""
    global peak
    wall, spent, memory, _ = started(words, given, out)
    if words[0] == fdb:
        peak = max(peak, memory)
    return wall, spent


def write(name, octets):
    path = f"{work}/{name}"
    open(path, "wb").write(octets)
    return path


def median(rows):
    return statistics.median(row[0] for row in rows)


FDB5 = all(shutil.which(tool) for tool in ("fdb-write", "fdb-read", "fdb-list"))
root, config = f"{work}/root5", f"{work}/config5.yaml"
if FDB5:
    rules = write("schema5", b"param: Param;\nstep: Step;\ndate: Date;\ntime: Time;\nlevelist: Double;\n"
                  b"[ date, time\n  [ levtype\n    [ param, step, levelist ]]]\n")
    write("config5.yaml", f"---\ntype: local\nengine: toc\nschema: {rules}\nspaces:\n- handler: Default\n  roots:\n  - path: {root}\n".encode())


def days(count):
    return "/".join((datetime.date(2024, 1, 1) + datetime.timedelta(days=i)).strftime("%Y%m%d") for i in range((count + 649) // 650))


def five(words, out=None):
    """The same of a tool of FDB5. Its parameters are those that ecCodes makes of ours, its levels in hPa."""
    return timed([words[0], f"--config={config}", *words[1:]], out=out)


def request5(count):
    levels = "/".join(str(level // 100) for level in (100000, 92500, 85000, 70000, 60000, 50000, 40000, 30000, 25000, 20000, 15000, 10000, 5000))
    steps = "/".join(str(6 * step) for step in range(10))
    return (f"retrieve,date={days(count)},time=0000,levtype=pl,param=130/157/131/132/156,step={steps},levelist={levels}\n").encode()


levels = write("schema", LEVELS.encode())
store, plain, out = f"{work}/store", f"{work}/plain", "/dev/shm/fdb-store-out"
for count, octets in ((10_000, 4), (1_000, 130_000)):
    sent = [message(i, octets) for i in range(count)]
    size, stream = len(sent[0]), write("stream", b"".join(sent))
    asked = write("request", request(count).encode())
    ours, theirs = {"archive": [], "retrieve": []}, {"archive": [], "retrieve": []}
    fives = {"archive": [], "retrieve": []}
    for _ in range(runs):
        for folder in (store, plain):
            shutil.rmtree(folder, ignore_errors=True)
        timed([fdb, "create", store], levels)
        ours["archive"].append(timed([fdb, "archive", store, *GIVEN], stream))
        theirs["archive"].append(timed([f"{work}/peer", "archive", plain, stream, str(size)]))
        answer = subprocess.run([fdb, "retrieve", store], stdin=open(asked, "rb"), stdout=open(out, "wb"),
                                stderr=subprocess.DEVNULL)
        assert answer.returncode in (0, 1) and open(out, "rb").read() == open(stream, "rb").read()
        start = time.perf_counter()
        subprocess.run([fdb, "retrieve", store], stdin=open(asked, "rb"), stdout=open(out, "wb"), stderr=subprocess.DEVNULL)
        ours["retrieve"].append((time.perf_counter() - start, 0))
        theirs["retrieve"].append(timed([f"{work}/peer", "retrieve", plain, str(count), str(size)], out=out))
        if FDB5:
            shutil.rmtree(root, ignore_errors=True)
            os.mkdir(root)
            fives["archive"].append(five(["fdb-write", stream]))
            fives["retrieve"].append(five(["fdb-read", "--raw", write("asked5", request5(count)), out]))
            assert os.path.getsize(out) == count * size
    for verb in ours:
        a, b = median(ours[verb]), median(theirs[verb])
        print(f"{verb:8} {count:6} x {size:6}: {count / a:9.0f} messages/s, {count * size / a / 1e6:7.1f} MB/s; "
              f"C {count / b:9.0f} messages/s; ratio {b / a:.2f}"
              + (f"; FDB5 {count / median(fives[verb]):9.0f} messages/s; ratio {median(fives[verb]) / a:.2f}" if FDB5 else ""))
shutil.rmtree(store)
timed([fdb, "create", store], levels)
timed([fdb, "archive", store, *GIVEN], write("stream", b"".join(message(i) for i in range(100_000))))
lists = [timed([fdb, "list", store], write("list", b"list\n"), out) for _ in range(runs)]
assert open(out, "rb").read().count(b"\n") == 100_000
print(f"list of 100,000 keys: {median(lists) * 1e3:.0f} ms")
if FDB5:
    shutil.rmtree(root)
    os.mkdir(root)
    five(["fdb-write", f"{work}/stream"])
    lists = [five(["fdb-list", "--raw", "--minimum-keys=date", f"date={days(100_000)}"], out) for _ in range(runs)]
    assert open(out, "rb").read().count(b"{levtype=") == 100_000
    print(f"list of 100,000 keys by FDB5: {median(lists) * 1e3:.0f} ms")
one = write("one", b"retrieve,class=od,expver=0001,date=20240301,time=00,centre=98,type=1,levtype=100,param=0.2.2,step=6,levelist=50000\n")
singles = [timed([fdb, "retrieve", store], one, out) for _ in range(4 * runs)]
print(f"retrieve of one key of 100,000: {median(singles) * 1e3:.1f} ms")
print(f"peak memory {peak:.1f} MiB; load {os.getloadavg()[0]:.1f}; {runs} runs")
os.remove(out)
PY
