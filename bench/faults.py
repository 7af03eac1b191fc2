"""The parts of faults.sh: what the disks of a host may do to a store, done to it.

faults.py PROGRAM WORK PARTS TRIALS STATES SEED TELL
"""
import ctypes
import fcntl
import os
import pathlib
import random
import re
import resource
import shutil
import signal
import subprocess
import sys
import termios
import time
from array import array

import power
from sent import SCHEMA, Program, Scope, Sent, archive_words, dataset_of, listed_by, session_input

program_path, work, parts, trials, states, seed, most = *sys.argv[1:4], int(sys.argv[4]), int(sys.argv[5]), sys.argv[6], int(sys.argv[7])
program = Program(program_path)
BLOCK = 4096
libc = ctypes.CDLL(None, use_errno=True)


def quietly(words):
    subprocess.run(words, stdout=subprocess.DEVNULL, stderr=subprocess.DEVNULL, check=True)


def unmount(path):
    for _ in range(50):
        if subprocess.run(["umount", path], stdout=subprocess.DEVNULL, stderr=subprocess.DEVNULL).returncode == 0:
            return
        time.sleep(0.1)
    raise OSError(f"{path} can't be unmounted")


def ram_disk(path, options):
    """A folder in memory, where root may mount one."""
    os.mkdir(path)
    if os.geteuid() == 0:
        quietly(["mount", "-t", "tmpfs", "-o", options, "tmpfs", path])


def end_below(process):
    """Ends what a process has started, and what that has."""
    try:
        threads = os.listdir(f"/proc/{process}/task")
        below = [int(child) for thread in threads for child in open(f"/proc/{process}/task/{thread}/children").read().split()]
    except OSError:
        return
    for child in below:
        end_below(child)
        try:
            os.kill(child, signal.SIGKILL)
        except OSError:
            pass


def stop(*_):
    end_below(os.getpid())
    sys.exit(2)


class Tally:
    """What a part counts, and what went wrong in it."""

    def __init__(self, part, title):
        self.part, self.title, self.counts, self.wrong, self.begun = part, title, {}, [], time.time()

    def add(self, what, number=1):
        self.counts[what] = self.counts.get(what, 0) + number

    def judge(self, have, why, sent, where):
        """Holds what a retrieve found against what was sent."""
        if have is None:
            self.add("stores refused")
            self.wrong.append(f"{where}: {why}")
            return False
        lost, torn = sent.judge(have)
        self.add("acknowledged fields lost", lost)
        self.add("fields torn", torn)
        if lost or torn:
            self.wrong.append(f"{where}: {lost} of {len(sent.least)} acknowledged fields lost, {torn} torn")
        return not lost and not torn

    def tell(self):
        counts = ", ".join(f"{number} {what}" for what, number in self.counts.items())
        print(f"({self.part}) {self.title}: {counts}; {len(self.wrong)} wrong, {time.time() - self.begun:.0f} seconds", flush=True)
        for why in self.wrong[:most]:
            print(f"    {why}")
        if len(self.wrong) > most:
            print(f"    and {len(self.wrong) - most} more")
        return bool(self.wrong)


def zeros(tally, *names):
    for name in names:
        tally.add(name, 0)


def made(store):
    """A new store."""
    status, _, told = program.run(["create", store], SCHEMA)
    assert status == 0, f"create ended with {status}: {told}"


def fields(sent, keys, octets=4):
    """New fields of these keys: their octets and places."""
    pairs = [sent.field(key, octets) for key in keys]
    return b"".join(whole for whole, _ in pairs), [place for _, place in pairs]


def archived(store, sent, keys, workers=1, octets=4, **others):
    """Archives new fields of the keys. Its status and report; the fields are acknowledged where it ended well."""
    given, places = fields(sent, keys, octets)
    status, _, told = program.run(archive_words(store, workers), given, **others)
    if status == 0:
        if not told.startswith(f"archived {len(places)} "):
            return None, f"another count: {told}"
        sent.acknowledge(places)
    return status, told


# (a) write errors


class Device:
    """A file system on a loop device over a sparse file in a small RAM disk, from which room can be taken away."""

    def __init__(self, folder, journal, block=4096):
        self.block = block
        self.ram, self.mount = f"{folder}/ram", f"{folder}/mount"
        self.image, self.filler = f"{self.ram}/image", f"{self.ram}/filler"
        for path in (self.ram, self.mount):
            os.makedirs(path, exist_ok=True)
        quietly(["mount", "-t", "tmpfs", "-o", "size=40m", "tmpfs", self.ram])
        os.close(os.open(self.image, os.O_CREAT | os.O_WRONLY))
        os.truncate(self.image, 64 << 20)
        quietly(["mkfs.ext4", "-q", "-F", "-b", str(block), "-m", "0", "-O", "has_journal" if journal else "^has_journal", "-J" if journal else "-q",
                 *(["size=4"] if journal else []), "-E", "lazy_itable_init=0,lazy_journal_init=0,nodiscard", self.image])
        self.own_blocks()
        self.first = self.extents()
        self.saved = []
        self.up()

    def own_blocks(self):
        """Gives the image the room for all that the file system itself has: its tables and its journal can be written always."""
        told = subprocess.run(["dumpe2fs", self.image], capture_output=True, text=True, check=True).stdout
        free = set()
        for line in re.findall(r"^  Free blocks: (.*)$", told, re.M):
            for first, last in re.findall(r"(\d+)(?:-(\d+))?", line):
                free.update(range(int(first), int(last or first) + 1))
        file = os.open(self.image, os.O_RDWR)
        start = 0
        for block in [*sorted(free), (64 << 20) // self.block]:
            if block > start:
                os.posix_fallocate(file, start * self.block, (block - start) * self.block)
            start = block + 1
        os.close(file)

    def up(self):
        quietly(["mount", "-o", "loop,errors=continue", self.image, self.mount])

    def down(self):
        unmount(self.mount)

    def remove(self):
        for path in (self.mount, self.ram):
            if os.path.ismount(path):
                unmount(path)

    def extents(self):
        """The pages of the image that the RAM disk has."""
        found, file = set(), os.open(self.image, os.O_RDONLY)
        try:
            at = 0
            while True:
                at = os.lseek(file, at, os.SEEK_DATA)
                end = os.lseek(file, at, os.SEEK_HOLE)
                found.update(range(at // BLOCK, -(-end // BLOCK)))
                at = end
        except OSError:
            pass
        os.close(file)
        return found

    def take_room(self, whole):
        """From now on no new block of the device can be written; with `whole` none of files and folders at all."""
        if whole:
            file = os.open(self.image, os.O_RDWR)
            for block in sorted(self.extents() - self.first):
                self.saved.append((block, os.pread(file, BLOCK, block * BLOCK)))
                # punch a hole, and keep the size
                assert libc.fallocate(file, 3, ctypes.c_int64(block * BLOCK), ctypes.c_int64(BLOCK)) == 0
            os.close(file)
        file = os.open(self.filler, os.O_CREAT | os.O_WRONLY)
        free = os.statvfs(self.ram)
        os.posix_fallocate(file, 0, free.f_bfree * free.f_bsize)
        os.close(file)

    def give_room(self):
        os.unlink(self.filler)
        have, file = self.extents(), os.open(self.image, os.O_RDWR)
        for block, octets in self.saved:
            if block not in have:
                os.pwrite(file, octets, block * BLOCK)
        os.close(file)
        self.saved = []

    def write_back(self):
        """Asks the system to write all back. Whether that went wrong."""
        file = os.open(self.mount, os.O_RDONLY)
        failed = libc.syncfs(file) != 0
        os.close(file)
        return failed

    def files(self):
        return [path for path in pathlib.Path(self.mount).rglob("*") if "lost+found" not in path.parts]

    def look(self):
        """Somebody else syncs every file and folder, and so is told of each error."""
        for path in self.files():
            file = os.open(path, os.O_RDONLY)
            libc.fsync(file)
            os.close(file)

    def drop(self):
        """What memory has of the files leaves it, and so do their inodes where nobody holds them open."""
        for path in self.files():
            if path.is_file():
                file = os.open(path, os.O_RDONLY)
                os.posix_fadvise(file, 0, 0, os.POSIX_FADV_DONTNEED)
                os.close(file)
        for _ in range(2):
            pathlib.Path("/proc/sys/vm/drop_caches").write_text("2")


def fail_writes(device, way):
    """Write-back with no room, and what comes between it and the program's next call."""
    whole, then = way
    device.take_room(whole)
    failed = device.write_back()
    if then == "looked":
        device.look()
    device.give_room()
    if then == "dropped":
        device.drop()
    return failed


STOPS = "pwrite64,write,mkdir,rename,openat,ftruncate,link"


def traced(words, given, told, inject=()):
    """The program below strace, with its input from a file."""
    if os.path.exists(told):
        os.unlink(told)
    chosen = [word for stop in inject for word in ("-e", f"inject={stop}")]
    return subprocess.Popen(["strace", "-f", "-y", "-qq", "-o", told, "-e", f"trace={STOPS}", *chosen, "--", program.path, *words],
                            stdin=open(given, "rb"), stdout=subprocess.DEVNULL, stderr=subprocess.PIPE)


def stops_of(told, store):
    """The calls that change what has this text in its path: by name, and by their number among their thread's calls of this name."""
    counted, found = {}, set()
    for line in open(told, errors="replace"):
        parts = re.match(r"(\d+) +(\w+)\(", line)
        if parts:
            counted[parts[1], parts[2]] = number = counted.get((parts[1], parts[2]), 0) + 1
            if store in line and " = -1" not in line and (parts[2] != "openat" or "O_CREAT" in line):
                found.add((parts[2], number))
    return sorted(found)


def all_stand(process):
    """Waits until no thread of a stopped process is in a call of the system any more."""
    still = 0
    for _ in range(500):
        try:
            states = [open(f"/proc/{process}/task/{thread}/stat").read().rsplit(")", 1)[1].split()[0] for thread in os.listdir(f"/proc/{process}/task")]
        except OSError:
            return
        still = still + 1 if set(states) <= {"t", "T"} else 0
        if still >= 4:
            return
        time.sleep(0.01)


def stopped_once(victim, told, then):
    """Waits for the program's end. When it is stopped for the first time, does `then`. Whether it was stopped, and its report."""
    stops, begun = 0, time.time()
    while victim.poll() is None and time.time() - begun < 60:
        lines = open(told, errors="replace").read() if os.path.exists(told) else ""
        now = lines.count("stopped by SIGSTOP")
        if now > stops:
            process = int(lines.split(None, 1)[0])
            if stops == 0:
                all_stand(process)
                then()
            stops = now
            os.kill(process, signal.SIGCONT)
        time.sleep(0.01)
    if victim.poll() is None:
        victim.kill()
    return stops > 0, victim.communicate()[1].decode(errors="replace")


def waits_for_input(child, pipe):
    """Waits until the program has read all that the pipe had and does nothing more."""
    quiet, spent = 0, None
    for _ in range(1000):
        left = array("i", [0])
        fcntl.ioctl(pipe, termios.FIONREAD, left)
        now = open(f"/proc/{child}/stat").read().rsplit(")", 1)[1].split()[11:13]
        quiet = quiet + 1 if left[0] == 0 and now == spent else 0
        if quiet >= 6:
            return
        spent = now
        time.sleep(0.025)


def piped_archive(store, sent, workers, then):
    """An archive of large fields. Between the first of them and the last ones `then` is done."""
    first, places = fields(sent, range(60), 130_000)
    last, more = fields(sent, range(60, 70), 130_000)
    victim = subprocess.Popen([program.path, *archive_words(store, workers)], stdin=subprocess.PIPE, stdout=subprocess.DEVNULL,
                              stderr=subprocess.PIPE)
    try:
        victim.stdin.write(first)
        victim.stdin.flush()
        waits_for_input(victim.pid, victim.stdin)
        then()
        told = victim.communicate(last, 60)[1].decode(errors="replace")
    except BrokenPipeError:
        told = victim.stderr.read().decode(errors="replace")
        victim.wait()
    return True, victim.returncode, told, places + more


def write_error_trial(device, kind, way, stop, chance, tally):
    """One command over which write-back fails. What was acknowledged has to be there after an unmount and a mount."""
    store, sent, hit = f"{device.mount}/store", Sent(), []
    if kind != "create":
        made(store)
        archived(store, sent, [650 + i for i in range(20)])
        device.write_back()

    def then():
        hit.append(fail_writes(device, way))

    if kind == "archive" and stop is None:
        _, status, told, places = piped_archive(store, sent, chance.choice([1, 4]), then)
    else:
        words, given, places, steps = command_of(kind, store, sent, chance)
        open(f"{work}/input", "wb").write(given)
        victim = traced(words, f"{work}/input", f"{work}/told", [f"{stop[0]}:signal=STOP:when={stop[1]}"])
        _, told = stopped_once(victim, f"{work}/told", then)
        status = victim.returncode
        places = listed_by(told, steps) if kind == "session" else places
    tally.add("met a write error", any(hit))
    if status == 0 or kind == "session":
        sent.acknowledge(places)
    tally.add("answered 0", status == 0)
    if status not in (0, 6):
        tally.wrong.append(f"{kind} {way} {stop}: status {status}: {told.strip()[-100:]}")
    device.down()
    device.up()
    where = f"{kind}, {'all blocks' if way[0] else 'new blocks'}, {way[1]}, behind {stop[0] + ' ' + str(stop[1]) if stop else 'a pause'}, status {status}"
    look_again(kind, status, store, sent, tally, where)


def again_trial(device, way, stop, chance, tally):
    """An archive whose syncs fail from one of its writes to the table on, and another one behind it, once all can be written again."""
    store, sent = f"{device.mount}/store", Sent()
    made(store)
    # the gate of the entry behind 10 or 26 stands in the block before that of its body
    entries = chance.choice([10, 26, chance.randrange(40), chance.randrange(40)])
    if entries:
        given, steps = session_input(sent, 0, 1, 1, entries)
        sent.acknowledge(listed_by(program.run(["session", store], given)[2], steps))
    device.write_back()
    given, places = fields(sent, range(100))
    open(f"{work}/input", "wb").write(given)
    victim = traced(archive_words(store), f"{work}/input", f"{work}/told", [f"{stop[0]}:signal=STOP:when={stop[1]}"])
    hit, _ = stopped_once(victim, f"{work}/told", lambda: device.take_room(True))
    if victim.returncode == 0:
        sent.acknowledge(places)
    if hit:
        device.give_room()
    if way == "dropped":
        device.drop()
    status, told = archived(store, sent, range(90, 130))
    tally.add("met a write error", hit)
    tally.add("answered 0", (status == 0) + (victim.returncode == 0))
    device.down()
    device.up()
    where = f"again, {way}, {entries} entries, behind {stop[0]} {stop[1]}, statuses {victim.returncode} and {status}"
    look_again("again", status, store, sent, tally, where)


def command_of(kind, store, sent, chance):
    """The words and the input of a command, and the places of its fields (of a session its lanes' steps)."""
    if kind == "create":
        return ["create", store], SCHEMA, [], None
    if kind == "session":
        given, steps = session_input(sent, 0, 4, 12, 3)
        return ["session", store], given, [], steps
    given, places = fields(sent, range(100), 20_000)
    return archive_words(store, chance.choice([1, 4])), given, places, None


def look_again(kind, status, store, sent, tally, where):
    if kind == "create":
        listed, _, told = program.run(["list", store], b"list")
        if status == 0 and listed != 0:
            tally.add("acknowledged stores lost")
            tally.wrong.append(f"{where}: list ended with {listed}: {told.strip()}")
        return
    for day in range(2):
        scope = Scope(day + 1, first=day)
        have, why = program.found(store, scope, sent)
        if have is None and not any(key in sent.least for key in scope.keys):
            # a folder that the host itself can't read
            tally.add("datasets refused in which nothing was acknowledged")
        else:
            tally.judge(have, why, sent, where)


def all_stops(chance):
    """Where each kind of command may be stopped, found by runs over a folder in which nothing fails."""
    plain, choices = f"{work}/plain", {}
    made(plain)
    for kind in ("archive", "session", "create"):
        store = f"{plain}-create" if kind == "create" else plain
        words, given, _, _ = command_of(kind, store, Sent(), chance)
        open(f"{work}/input", "wb").write(given)
        traced(words, f"{work}/input", f"{work}/told").communicate()
        choices[kind] = stops_of(f"{work}/told", store)
    open(f"{work}/input", "wb").write(fields(Sent(), range(100))[0])
    traced(archive_words(plain), f"{work}/input", f"{work}/told").communicate()
    choices["again"] = [stop for stop in stops_of(f"{work}/told", "/toc") if stop[0] != "openat"]
    return choices


def write_errors():
    tally = Tally("a", "write errors between write and sync")
    zeros(tally, "trials", "met a write error", "answered 0", "acknowledged fields lost", "fields torn", "acknowledged stores lost")
    chance = random.Random(f"{seed}a")
    ways = [(whole, then) for then in ("dropped", "looked", "kept") for whole in (False, True)]
    choices = all_stops(chance)
    for kind in ("archive", "session", "create", "again"):
        for trial in range(trials):
            device = Device(f"{work}/device", trial % 4 == 3, 1024 if kind == "again" else 4096)
            try:
                tally.add("trials")
                stop = None if kind == "archive" and trial % 2 == 0 else chance.choice(choices[kind])
                if kind == "again":
                    again_trial(device, "dropped" if trial % 8 < 2 else "kept", stop, chance, tally)
                else:
                    write_error_trial(device, kind, ways[trial // 2 % len(ways)], stop, chance, tally)
            finally:
                device.remove()
    return tally.tell()


# (b) a full disk


def fill(ram, left):
    """Leaves so many blocks."""
    filler = os.open(f"{ram}/filler", os.O_CREAT | os.O_WRONLY)
    free = os.statvfs(ram)
    room = free.f_bavail * free.f_bsize - left * BLOCK
    if room > 0:
        os.posix_fallocate(filler, 0, room)
    os.close(filler)


def fill_names(ram, left):
    """Leaves room for so many files and folders."""
    os.mkdir(f"{ram}/filler")
    for number in range(os.statvfs(ram).f_favail - left):
        os.close(os.open(f"{ram}/filler/{number}", os.O_CREAT | os.O_WRONLY))


def empty(ram):
    if os.path.isdir(f"{ram}/filler"):
        shutil.rmtree(f"{ram}/filler")
    else:
        os.unlink(f"{ram}/filler")


def full_disk_trial(left, ram, tally, kind, filling=fill):
    """An archive or a session with so little room left, and another archive once there is room again."""
    sent, store, steps = Sent(), f"{ram}/store", None
    made(store)
    archived(store, sent, range(20))
    filling(ram, left)
    if kind == "session":
        words, (given, steps), places = ["session", store], session_input(sent, 0, 4, 6, 6), []
    else:
        given, places = fields(sent, range(10, 40), 20_000)
        more, others = fields(sent, range(650, 690))
        words, given, places = archive_words(store, kind), given + more, places + others
    status, _, told = program.run(words, given)
    sent.acknowledge(listed_by(told, steps) if steps else places if status == 0 else [])
    tally.add("answered 0", status == 0)
    where = f"{left} {'blocks' if filling is fill else 'files'} left, {kind if steps else f'archive by {kind}'}"
    if status not in (0, 6):
        tally.wrong.append(f"{where}: status {status}: {told.strip()[-100:]}")
    have, why = program.found(store, Scope(2), sent)
    if tally.judge(have, why, sent, f"{where}, status {status}, while full"):
        sent.take(have)
    empty(ram)
    status, told = archived(store, sent, range(30, 60))
    if status != 0:
        tally.wrong.append(f"{where}: with room again status {status}: {told.strip()[-100:]}")
    have, why = program.found(store, Scope(2), sent)
    tally.judge(have, why, sent, f"{where}, with room again")
    shutil.rmtree(store)


def full_disk():
    tally = Tally("b", "a full disk, from 1 to 200 blocks left and from 0 to 39 files")
    zeros(tally, "trials", "answered 0", "acknowledged fields lost", "fields torn")
    step = max(1, 20 // trials)
    for title, options, lefts, filling in (("full", "size=8m", range(1, 201, step), fill), ("names", "size=8m,nr_inodes=200", range(0, 40, step), fill_names)):
        ram_disk(f"{work}/{title}", options)
        for turn, left in enumerate(lefts):
            tally.add("trials")
            full_disk_trial(left, f"{work}/{title}", tally, (1, 4, "session")[turn % 3], filling)
        unmount(f"{work}/{title}")
    if has_loops():
        device = Device(f"{work}/device", True)
        try:
            for turn, left in enumerate(range(5, 201, 5 * step)):
                tally.add("trials")
                full_disk_trial(left, device.mount, tally, (1, "session", 4)[turn % 3])
        finally:
            device.remove()
    return tally.tell()


# (c) few descriptors, short files


def few(kind, number):
    """What a child does before it becomes the program: its limits. The signal of a file that is too long is ignored."""
    def limits():
        signal.signal(signal.SIGXFSZ, signal.SIG_IGN)
        resource.setrlimit(kind, (number, number))
    return {"preexec_fn": limits, "restore_signals": False}


def limited_trial(name, others, tally, days, octets):
    """Archives, a session and a retrieve below a limit, over a store that has fields; then the same without it."""
    store, sent = f"{work}/limits/store", Sent()
    shutil.rmtree(store, ignore_errors=True)
    made(store)
    archived(store, sent, [650 * day for day in range(days)])
    keys = [650 * day + i for day in range(days) for i in range(1, 6)]
    for workers in (1, 4):
        status, told = archived(store, sent, keys, workers, octets, **others)
        tell_limited(tally, f"{name}, archive with {workers} workers", status, told)
    given, steps = session_input(sent, 0, 4, 8, 2, 4)
    status, _, told = program.run(["session", store], given, **others)
    sent.acknowledge(listed_by(told, steps))
    tell_limited(tally, f"{name}, session", status, told)
    status, _, told = program.run(["list", store], b"list", **others)
    tell_limited(tally, f"{name}, list", status, told)
    have, why = program.found(store, Scope(days), sent, **others)
    if have is None and why.startswith("retrieve ended with 6:"):
        tally.add("refused with 6")
    else:
        tally.add("ended well", have is not None)
        tally.judge(have, why, sent, f"{name}, retrieve below the limit")
    have, why = program.found(store, Scope(days), sent)
    if tally.judge(have, why, sent, f"{name}, retrieve without the limit"):
        sent.take(have)
    status, told = archived(store, sent, keys, 4, octets)
    if status != 0:
        tally.wrong.append(f"{name}: without the limit status {status}: {told.strip()[-100:]}")
    have, why = program.found(store, Scope(days), sent)
    tally.judge(have, why, sent, f"{name}, at the end")


def tell_limited(tally, name, status, told):
    tally.add("ended well", status == 0)
    tally.add("refused with 6", status == 6)
    if status not in (0, 6):
        tally.wrong.append(f"{name}: status {status}: {told.strip()[-100:]}")


def limits():
    tally = Tally("c", "few descriptors (ulimit -n) and short files (ulimit -f)")
    ram_disk(f"{work}/limits", "size=256m")
    zeros(tally, "ended well", "refused with 6", "acknowledged fields lost", "fields torn")
    for number in (16, 12, 8, 24, 64):
        limited_trial(f"ulimit -n {number}", few(resource.RLIMIT_NOFILE, number), tally, 30, 4)
    for number in (0, 1, 300, 321, 322, 400, 512, 1000, 2000, 4096, 8192, 12_000, 20_000, 100_000, 1_000_000):
        limited_trial(f"a limit of {number} octets a file", few(resource.RLIMIT_FSIZE, number), tally, 3, 4 if number < 20_000 else 30_000)
    return tally.tell()


# (d) several processes


def side_by_side(number, store, sent, chance, tally):
    """So many archives at once over the dataset of a day, each of keys of its own, and a retrieve and a session beside them."""
    runs = []
    for which in range(number):
        words, given, places, steps = one_of(which, number, store, sent, chance)
        victim = subprocess.Popen([program.path, *words], stdin=subprocess.PIPE, stdout=subprocess.DEVNULL, stderr=subprocess.PIPE)
        runs.append((victim, given, places, steps))
    for victim, given, _, _ in runs:
        try:
            victim.stdin.write(given)
            victim.stdin.close()
        except BrokenPipeError:
            pass
    statuses = []
    for victim, _, places, steps in runs:
        told = victim.stderr.read().decode(errors="replace")
        statuses.append(victim.wait())
        if steps:
            sent.acknowledge(listed_by(told, steps))
        if statuses[-1] == 0:
            sent.acknowledge(places)
        elif statuses[-1] != 6:
            tally.wrong.append(f"{number} at once: status {statuses[-1]}: {told.strip()[-100:]}")
    tally.add("answered 0", statuses.count(0))
    tally.add("refused with 6", statuses.count(6))
    if 0 not in statuses:
        tally.add("rounds in which none did")
    have, why = program.found(store, Scope(2), sent)
    if not tally.judge(have, why, sent, f"{number} at once, statuses {statuses}"):
        return False
    sent.take(have)
    return True


def one_of(which, number, store, sent, chance):
    """One of the commands that run at once, each of keys of its own: archives, and of four at times a session."""
    if which == 3 and number == 4 and chance.random() < 0.5:
        given, steps = session_input(sent, 0, 2, 4, 3, 0, range(3, 130, 5))
        return ["session", store], given, [], steps
    given, places = fields(sent, range(which, 130, 5))
    return archive_words(store, chance.choice([1, 1, 4])), given, places, None


OTHER_SCHEMA = b"[class, expver [date, time, centre, type, levtype [param, step, levelist?]]]\n"


def two_creates(tally):
    """Two creates at once with different schemas: at most one may answer 0, and the store then has its schema."""
    store, texts = f"{work}/twice", (SCHEMA, OTHER_SCHEMA)
    shutil.rmtree(store, ignore_errors=True)
    runs = [subprocess.Popen([program.path, "create", store], stdin=subprocess.PIPE, stdout=subprocess.DEVNULL, stderr=subprocess.DEVNULL) for _ in texts]
    for run, text in zip(runs, texts):
        try:
            run.stdin.write(text)
            run.stdin.close()
        except BrokenPipeError:
            pass
    statuses = [run.wait() for run in runs]
    tally.add("creates answered 0", statuses.count(0))
    if statuses.count(0) != 1:
        if statuses.count(0) > 1:
            tally.wrong.append("two creates at once, with different schemas, answered 0")
        return
    sent = Sent()
    archived(store, sent, [0])
    _, out, _ = program.run(["list", store], b"list")
    if out.startswith(b"class=od,expver=0001,date") != (statuses[0] == 0):
        tally.wrong.append(f"two creates at once, statuses {statuses}: the store has the other's schema")


def held_open(store, sent, tally, kill):
    """One archive has its dataset open and waits for input; others come meanwhile; then it is killed, or goes on to its end."""
    first, places = fields(sent, range(60), 20_000)
    last, more = fields(sent, range(60, 70), 20_000)
    holder = subprocess.Popen([program.path, *archive_words(store)], stdin=subprocess.PIPE, stdout=subprocess.DEVNULL, stderr=subprocess.PIPE)
    for at in range(0, len(first), 65_536):
        holder.stdin.write(first[at:at + 65_536])
    holder.stdin.flush()
    waits_for_input(holder.pid, holder.stdin)
    have, why = program.found(store, Scope(2), sent)
    tally.judge(have, why, sent, "a retrieve beside an archive")
    status, told = archived(store, sent, range(70, 90))
    tally.add("others answered 0", status == 0)
    if status not in (0, 6):
        tally.wrong.append(f"beside an archive that waits: status {status}: {told.strip()[-100:]}")
    if kill:
        holder.kill()
        holder.wait()
    else:
        told = holder.communicate(last, 60)[1].decode(errors="replace")
        if holder.returncode == 0:
            sent.acknowledge(places + more)
        tally.add("holders answered 0", holder.returncode == 0)
    have, why = program.found(store, Scope(2), sent)
    good = tally.judge(have, why, sent, f"an archive that waited, {'killed' if kill else 'ended with ' + str(holder.returncode)}, the other one ended with {status}")
    if good:
        sent.take(have)
    status, told = archived(store, sent, range(100, 120))
    if status != 0:
        tally.wrong.append(f"an archive behind one that was {'killed' if kill else 'ended'}: status {status}: {told.strip()[-100:]}")
    have, why = program.found(store, Scope(2), sent)
    return tally.judge(have, why, sent, "the archive behind it") and good


def processes():
    tally = Tally("d", "two and four archives at once, and one that waits")
    zeros(tally, "rounds", "answered 0", "refused with 6", "rounds in which none did", "holders answered 0", "others answered 0",
          "acknowledged fields lost", "fields torn")
    chance = random.Random(f"{seed}d")
    store, sent, number = f"{work}/shared", Sent(), 0

    def anew():
        shutil.rmtree(store, ignore_errors=True)
        made(store)
        fresh = Sent()
        archived(store, fresh, range(650, 660))
        return fresh

    sent = anew()
    for turn in range(2 * trials):
        tally.add("rounds")
        if turn % 8 == 0:
            # the first ones find no dataset
            shutil.rmtree(store)
            sent = anew()
        if not side_by_side(2 if turn % 2 else 4, store, sent, chance, tally):
            sent = anew()
    for turn in range(trials):
        two_creates(tally)
    for turn in range(trials):
        tally.add("rounds")
        if not held_open(store, sent, tally, turn % 2 == 0):
            sent = anew()
    return tally.tell()


# (e), (f) a power cut


class Story:
    """Commands over one folder, one after another, below strace, and what each moment of them had acknowledged."""

    def __init__(self, live, store, sent, created):
        self.live, self.store, self.sent, self.line = live, store, sent, 0
        self.disk = power.Disk(live)
        # from which line on what had been acknowledged, and whether there was a store
        self.known = [(-1, sent.copy(), created)]
        # of each command the line where it begins, that of its report, and its chains: fields that are listed in their order
        self.chains = []

    def run(self, words, given, places, steps=None, failing=None):
        """One command, which has to end well, but where one of its syncs is made to fail. Its status."""
        open(f"{work}/input", "wb").write(given)
        chosen = ["-e", f"inject=fsync,fdatasync:error=EIO:when={failing}"] if failing else []
        ended = subprocess.run(["strace", "-f", "-xx", "-qq", "-s", "4000000", "-e", "signal=none", "-e", f"trace={power.CALLS}", *chosen, "-o", f"{work}/trace",
                                "--", program.path, *words], stdin=open(f"{work}/input", "rb"), capture_output=True)
        told = ended.stderr.decode(errors="replace")
        assert ended.returncode in ((0, 6) if failing else (0,)), f"{words}: status {ended.returncode}: {told[-300:]}"
        first = self.line
        calls, self.line = power.read_trace(f"{work}/trace", self.line)
        self.disk.play(calls)
        if ended.returncode == 0:
            self.chains.append((first, self.disk.moments[-1], chains_of(words, places, steps)))
        if steps:
            self.sent.acknowledge(listed_by(told, steps))
        elif ended.returncode == 0:
            self.sent.acknowledge(places)
        # once the report was written
        self.known.append((self.disk.moments[-1], self.sent.copy(), True))
        return ended.returncode

    def at(self, cut):
        """What was acknowledged before that line. What was sent by then or later is in it."""
        known = [entry for entry in self.known if entry[0] < cut][-1]
        then = Sent()
        then.fields, then.least = self.sent.fields, known[1].least
        return then.copy(), known[2]

    def cut(self, chance):
        """A line: one in six just behind a report, the others behind a call that changed or synced something in the store."""
        if chance.random() < 1 / 6:
            return chance.choice(self.known)[0] + 1
        return chance.choice(self.disk.marks)


def chains_of(words, places, steps):
    """What is listed in the order in which it was sent: of a session each lane's fields, of an archive by one worker those of a dataset."""
    if steps:
        return [[place for place in chain if place is not None] for chain in steps.values()]
    if words[0] != "archive" or "--workers" in words:
        return []
    return [[place for place in places if place[0] // 650 == day] for day in {key // 650 for key, _ in places}]


MOODS = ["keep", "drop", "some", "some", "some", "zeros", "any"]


def tell_of_store(story, state, cut, scope, tally, where, goes_on):
    """Opens a store that a power cut left."""
    sent, created = story.at(cut)
    store = state + story.store[len(story.live):]
    status, _, told = program.run(["list", store], b"list")
    missing = status == 3 and "SchemaMissing" in told
    if missing and not created:
        return sent, store, False
    if missing:
        tally.add("stores that were gone")
        tally.wrong.append(f"{where}: the store is gone, with {len(sent.least)} acknowledged fields")
        return sent, store, False
    if status != 0:
        tally.add("stores refused")
        tally.wrong.append(f"{where}: list ended with {status}: {told.strip()[-200:]}")
        return sent, store, False
    have, why = program.found(store, scope, sent)
    if not tally.judge(have, why, sent, where):
        return sent, store, False
    for first, told, chains in story.chains:
        if first < cut <= told and not all(sent.is_front(have, chain) for chain in chains):
            tally.add("batches in pieces")
            tally.wrong.append(f"{where}: fields are found, and others that were listed before them aren't")
    sent.take(have)
    if goes_on:
        tally.add("went on")
        status, told = archived(store, sent, scope.keys[:3] + scope.keys[-3:])
        if status != 0:
            tally.wrong.append(f"{where}: an archive behind it ended with {status}: {told.strip()[-200:]}")
        have, why = program.found(store, scope, sent)
        tally.judge(have, why, sent, f"{where}, gone on")
    return sent, store, True


def cut_states(story, number, scope, chance, tally, title):
    """Draws states of a story and opens each. Returns the last one that was right, with what is known of it."""
    story.disk.ready()
    good = None
    for turn in range(number):
        cut, names, octets = story.cut(chance), chance.choice(MOODS), chance.choice(MOODS)
        state = f"{os.path.dirname(story.live)}/state"
        shutil.rmtree(state, ignore_errors=True)
        tree = story.disk.state(cut, chance, names, octets)
        power.lay_out(tree, state)
        tally.add("states")
        where = f"{title}, line {cut} of {story.line}, names {names}, octets {octets}"
        sent, store, fine = tell_of_store(story, state, cut, scope, tally, where, turn % 4 == 0)
        if fine and turn % 4:
            good = (tree, sent)
    return good


def story_of_nested():
    """A store far down in folders that weren't there, and its first archive."""
    live = f"{work}/ram/nested"
    os.mkdir(live)
    story = Story(live, f"{live}/a/b/c/store", Sent(), False)
    story.run(["create", story.store], SCHEMA, [])
    given, places = fields(story.sent, range(20))
    story.run(archive_words(story.store), given, places)
    return story


def story_of_many():
    """Archives by one and by four workers, the same again, a session and a trial."""
    live = f"{work}/ram/many"
    os.mkdir(live)
    story = Story(live, f"{live}/store", Sent(), False)
    story.run(["create", story.store], SCHEMA, [])
    for keys, workers, octets in ((range(40), 1, 4), ([*range(20, 130), *range(650, 740)], 4, 4), ([*range(10), *range(1300, 1320)], 1, 10_000),
                                  ([*range(60), *range(1300, 1360)], 4, 4)):
        given, places = fields(story.sent, keys, octets)
        story.run(archive_words(story.store, workers), given, places)
    session_of(story)
    trial_of(story)
    return story


def session_of(story):
    given, steps = session_input(story.sent, 0, 3, 6, 3, 2)
    story.run(["session", story.store], given, [], steps)


def trial_of(story, number=130):
    places = [story.sent.plain_field(key)[1] for key in range(number)]
    story.run(["trial", story.store, str(number), "--workers", "2"], b"", places)


def story_of_trial():
    """A trial that makes its store."""
    live = f"{work}/ram/trial"
    os.mkdir(live)
    story = Story(live, f"{live}/store", Sent(), False)
    trial_of(story)
    return story


def story_behind(good, turn):
    """What is done over a store that a power cut left."""
    tree, sent = good
    live = f"{work}/ram/behind{turn}"
    power.lay_out(tree, live)
    story = Story(live, f"{live}/store", sent, True)
    given, places = fields(story.sent, [*range(30), *range(650, 680)])
    story.run(archive_words(story.store, 4 if turn % 2 else 1), given, places)
    session_of(story)
    return story


def story_of_failed(turn, chance, tally):
    """A dataset with so many entries; an archive or a session of which a sync fails; another archive behind it."""
    live, sent = f"{work}/ram-f/failed", Sent()
    shutil.rmtree(live, ignore_errors=True)
    os.mkdir(live)
    store = f"{live}/store"
    made(store)
    # the body of the entry behind 57 crosses into a new block, the gate of the one behind 58 stands in front of it
    for entries in chance.choice([[], [3], [57], [58], [56]]):
        given, steps = session_input(sent, 0, 1, 1, entries)
        sent.acknowledge(listed_by(program.run(["session", store], given)[2], steps))
    story = Story(live, store, sent, True)
    if turn % 3 == 2:
        given, steps = session_input(sent, 0, 1, 5, 3)
        status = story.run(["session", store], given, [], steps, failing=1 + turn // 3 % 14)
    else:
        given, places = fields(sent, range(40))
        status = story.run(archive_words(store, 1 + turn % 3), given, places, failing=1 + turn // 3 % 8)
    tally.add("failed syncs met", status == 6)
    given, places = fields(sent, [*range(30, 70), *range(650, 670)])
    story.run(archive_words(store), given, places)
    return story


def failed_syncs():
    """A sync that fails, what is acknowledged behind it, and then a power cut."""
    tally = Tally("f", "a sync that failed, and then a power cut")
    zeros(tally, "states", "went on", "acknowledged fields lost", "fields torn", "stores refused", "failed syncs met")
    chance, scope = random.Random(f"{seed}f"), Scope(3)
    ram_disk(f"{work}/ram-f", "size=256m")
    for turn in range(3 * trials):
        story = story_of_failed(turn, chance, tally)
        tally.wrong += list(story.disk.differs())
        cut_states(story, max(1, states // (12 * trials)), scope, chance, tally, f"failed sync {turn}")
    return tally.tell()


def power_cut():
    tally = Tally("e", "a power cut")
    zeros(tally, "states", "went on", "acknowledged fields lost", "fields torn", "stores refused", "stores that were gone", "batches in pieces")
    chance, scope = random.Random(f"{seed}e"), Scope(3)
    ram_disk(f"{work}/ram", "size=256m")
    for title, make, share in (("nested", story_of_nested, 0.15), ("trial", story_of_trial, 0.1), ("many", story_of_many, 0.45)):
        story = make()
        tally.wrong += list(story.disk.differs())
        # of the last one, what was left and was right is gone on from
        good = cut_states(story, int(states * share), scope, chance, tally, title)
    for turn in range(6):
        if good is None:
            break
        story = story_behind(good, turn)
        tally.wrong += list(story.disk.differs())
        good = cut_states(story, int(states * 0.05), scope, chance, tally, f"behind a cut {turn + 1}") or good
        shutil.rmtree(story.live)
    return tally.tell()


# (g) the order of a purge's and a wipe's calls

ORDERED, SYNCS = "openat,write,pwrite64,rename,renameat,renameat2,unlink,unlinkat,fsync,fdatasync", ("fsync", "fdatasync")


class Step:
    """A system call of a trace: its thread, its name, the descriptor that it is given, the paths of this or of its words, and its answer."""

    def __init__(self, line):
        parts = re.fullmatch(r"(\d+) +(\w+)\((.*)\) += (-?\d+).*", line)
        if not parts:
            raise power.Unknown(f"line: {line[:100]}")
        self.thread, self.name, words, self.answer = parts[1], parts[2], parts[3], int(parts[4])
        given = re.match(r"(\d+)<([^>]*)>", words)
        self.handle = int(given[1]) if given else None
        self.paths = [given[2]] if given else re.findall(r'"([^"]*)"', words)

    def is_of(self, names, path):
        """It is one of these calls, went well, and was of this path."""
        return self.name in names and self.answer >= 0 and self.paths[-1:] == [path]


def steps_below(words, inject=()):
    """The status and report of a command below strace, and its calls in their order."""
    chosen = [word for fault in inject for word in ("-e", f"inject={fault}")]
    ended = subprocess.run(["strace", "-f", "-y", "-qq", "-s", "0", "-e", "signal=none", "-e", f"trace={ORDERED}", *chosen, "-o", f"{work}/steps", "--", program.path, *words],
                           stdin=subprocess.DEVNULL, capture_output=True)
    return ended.returncode, ended.stderr.decode(errors="replace"), [Step(line.rstrip("\n")) for line in open(f"{work}/steps", errors="replace")]


def firm_at(steps, folder):
    """The place of the sync that makes the table's new name, or its removal, firm, and what is wrong with the order around it."""
    table = f"{folder}/toc"
    changes = [i for i, step in enumerate(steps) if step.is_of(("rename", "renameat", "renameat2", "unlink", "unlinkat"), table)]
    if not changes:
        return None, "the table was neither renamed nor removed"
    change = changes[-1]
    firm = next((i for i in range(change, len(steps)) if steps[i].is_of(SYNCS, folder)), None)
    behind = [i for i, step in enumerate(steps) if i > change and (step.name == "write" and step.handle in (1, 2) or step.name.startswith("unlink"))]
    if len(behind) < 2:
        return None, "no file was removed, or nothing was told"
    if firm is None or firm > behind[0]:
        return None, f"the folder isn't synced before the {steps[behind[0]].name} of {steps[behind[0]].paths[-1]}"
    # a descriptor that is older than the change tells of each failure to write it back
    opened = max(i for i in range(firm) if steps[i].name == "openat" and steps[i].answer == steps[firm].handle)
    if opened > change:
        return None, "the folder is synced through a descriptor that is younger than the change"
    if steps[change].name.startswith("rename"):
        new = steps[change].paths[0]
        written = max((i for i in range(change) if steps[i].is_of(("write", "pwrite64"), new)), default=-1)
        if not any(steps[i].is_of(SYNCS, new) for i in range(written + 1, change)):
            return None, "the new table isn't synced before it gets its name"
    return firm, None


def fails_at(command, steps, firm, store, tally):
    """The same command over a store like that before it, where this sync fails. What is wrong then."""
    number = sum(step.thread == steps[firm].thread and step.name == steps[firm].name for step in steps[:firm + 1])
    folder = f"{store}/{dataset_of(0)}"
    files = set(os.listdir(folder)) - {"toc"}
    status, told, again = steps_below([command, store, dataset_of(0)], [f"{steps[firm].name}:error=EIO:when={number}"])
    failed = [step.paths for step in again if step.name in SYNCS and step.answer < 0]
    tally.add("syncs that failed", len(failed))
    if failed != [[folder]]:
        return f"other syncs failed: {failed}"
    if status != 6 or told != "disk failed\n":
        return f"status {status}: {told.strip()[-200:]}"
    lost = files - set(os.listdir(folder))
    return f"{len(lost)} files were removed behind the failed sync" if lost else None


def renewals():
    """A purge and a wipe: the table's name is firm before a file is removed, and nothing is removed where it can't be made firm."""
    tally = Tally("g", "the calls of a purge and of a wipe in their order, and a sync of the folder that fails")
    zeros(tally, "runs in order", "syncs that failed", "acknowledged fields lost", "fields torn", "stores refused")
    first, sent, scope = f"{os.path.realpath(work)}/renewed", Sent(), Scope(1)
    made(first)
    for _ in range(3):
        status, told = archived(first, sent, scope.keys)
        assert status == 0, f"archive ended with {status}: {told}"
    for command in ("purge", "wipe"):
        whole, broken = f"{first}-{command}", f"{first}-{command}-broken"
        shutil.copytree(first, whole)
        shutil.copytree(first, broken)
        status, told, steps = steps_below([command, whole, dataset_of(0)])
        firm, why = firm_at(steps, f"{whole}/{dataset_of(0)}")
        if status != 0 or why:
            tally.wrong.append(f"{command}: {why or f'status {status}: {told.strip()[-200:]}'}")
        if firm is None:
            continue
        tally.add("runs in order")
        why = fails_at(command, steps, firm, broken, tally)
        if why:
            tally.wrong.append(f"{command}, whose sync of the folder fails: {why}")
        for store in (whole, broken) if command == "purge" else ():
            tally.judge(*program.found(store, scope, sent), sent, f"a retrieve behind a {command}")
    return tally.tell()


# (h), (i) a block of a folder, or the journal, that can't be written for some seconds


class Spots(Device):
    """A file system on a loop device over a file that has room for all its blocks, out of which chosen ones can be taken for a time."""

    def __init__(self, folder, journal):
        self.block, self.journal = BLOCK, journal
        self.ram, self.mount = f"{folder}/ram", f"{folder}/mount"
        self.image, self.filler = f"{self.ram}/image", f"{self.ram}/filler"
        for path in (self.ram, self.mount):
            os.makedirs(path, exist_ok=True)
        quietly(["mount", "-t", "tmpfs", "-o", "size=40m", "tmpfs", self.ram])
        file = os.open(self.image, os.O_CREAT | os.O_WRONLY)
        os.posix_fallocate(file, 0, 32 << 20)
        os.close(file)
        # names lie in a folder's blocks in the order in which they were made
        quietly(["mkfs.ext4", "-q", "-F", "-b", str(BLOCK), "-m", "0", "-O", f"{'' if journal else '^'}has_journal,^dir_index,^metadata_csum",
                 *(["-J", "size=4"] if journal else []), "-E", "lazy_itable_init=0,lazy_journal_init=0,nodiscard", self.image])
        self.saved = []
        self.up()

    def up(self):
        quietly(["mount", "-o", f"loop,errors=continue{',commit=1' if self.journal else ''}", self.image, self.mount])

    def again(self):
        """An unmount and a mount, as at a new start of the machine."""
        self.down()
        self.up()

    def blocks_of(self, inode):
        """The blocks of the device that a file or a folder has."""
        self.write_back()
        told = subprocess.run(["debugfs", "-R", f"blocks <{inode}>", self.image], capture_output=True, text=True, check=True).stdout
        return [int(word) for word in told.split()]

    def take(self, blocks):
        """From now on these blocks can't be written; all others can."""
        file = os.open(self.image, os.O_RDWR)
        for block in blocks:
            self.saved.append((block, os.pread(file, BLOCK, block * BLOCK)))
            assert libc.fallocate(file, 3, ctypes.c_int64(block * BLOCK), ctypes.c_int64(BLOCK)) == 0
        os.close(file)
        file = os.open(self.filler, os.O_CREAT | os.O_WRONLY)
        free = os.statvfs(self.ram)
        os.posix_fallocate(file, 0, free.f_bfree * free.f_bsize)
        os.close(file)

    def give(self):
        """They can be written again, and have what they had."""
        if self.saved:
            self.give_room()

    def fill_names(self, folder):
        """Fills the first block of a folder with names, but for room for `toc.new`, so that others come into its second block. That block."""
        plain, odd = f"{self.mount}/plain", f"{folder}/strange"
        open(plain, "w").close()
        open(odd, "w").close()
        for number in range(2000):
            os.link(plain, f"{folder}/{number:03x}")
            if os.stat(folder).st_size > BLOCK:
                break
        os.unlink(odd)
        return self.blocks_of(os.stat(folder).st_ino)[1]


HELD_SYNCS = "openat,fsync,fdatasync"


def slowly(words, given, told, delay):
    """The program below strace, each of whose syncs is held back so long before it is done."""
    with open(f"{told}.input", "wb") as file:
        file.write(given)
    if os.path.exists(told):
        os.unlink(told)
    return subprocess.Popen(["strace", "-f", "-y", "-qq", "-s", "0", "-e", "signal=none", "-e", f"trace={HELD_SYNCS}", "-e",
                             f"inject=fsync,fdatasync:delay_enter={int(delay * 1e6)}", "-o", told, "--", program.path, *words],
                            stdin=open(f"{told}.input", "rb"), stdout=subprocess.DEVNULL, stderr=subprocess.PIPE)


def text_at(path):
    return open(path, errors="replace").read() if os.path.exists(path) else ""


def until_told(device, runs, beside):
    """Waits for the runs' ends. The device's block can be written again once one of their syncs was told of it. `beside` is run once the files of
    the first of them are there. Whether one was told, and what `beside` answered."""
    seen, answer, begun = False, None, time.time()
    while any(run.poll() is None for run, _ in runs) and time.time() - begun < 60:
        texts = [text_at(told) for _, told in runs]
        if beside and answer is None and re.search(r"\.(?:fields|index)\b.*O_CREAT", texts[0]):
            answer = beside()
        if not seen and (any(" EIO" in text for text in texts) or (answer and answer[0] == 6)):
            seen = True
            device.give()
        time.sleep(0.005)
    device.give()
    return seen or any(" EIO" in text_at(told) for _, told in runs), answer


def told_once_trial(kind, delay, tally):
    """One of the sequences in which somebody else may be told of a folder's block that couldn't be written."""
    device = Spots(f"{work}/device", False)
    try:
        store, sent = f"{device.mount}/store", Sent()
        made(store)
        archived(store, sent, range(20))
        archived(store, sent, range(1300, 1310))
        folder = store if kind == "two datasets" else f"{store}/{dataset_of(0)}"
        device.take([device.fill_names(folder)])
        runs, others, beside = [], [], None
        if kind == "two lanes":
            given, steps = session_input(sent, 0, 2, 4, 1, 0, range(20, 130))
            runs.append((slowly(["session", store], given, f"{work}/told", delay), f"{work}/told"))
        elif kind == "two datasets":
            for at in range(2):
                given, places = fields(sent, range(650 * (1 + 2 * at), 650 * (1 + 2 * at) + 30))
                others.append(places)
                runs.append((slowly(archive_words(store), given, f"{work}/told{at}", delay), f"{work}/told{at}"))
        else:
            given, places = fields(sent, range(20, 100))
            others.append(places)
            runs.append((slowly(archive_words(store, 2 if kind == "two workers" else 1), given, f"{work}/told", delay), f"{work}/told"))
            if kind == "a reader":
                beside = lambda: program.run(["retrieve", store], Scope(1).request)
        seen, answer = until_told(device, runs, beside)
        statuses = []
        for (run, _), places in zip(runs, others or [[]]):
            told = run.communicate()[1].decode(errors="replace")
            statuses.append(run.returncode)
            sent.acknowledge(listed_by(told, steps) if kind == "two lanes" else places if run.returncode == 0 else [])
        tally.add("met a write error", seen)
        tally.add("answered 0", statuses.count(0))
        where = f"{kind}, syncs held for {delay:.2f} s, statuses {statuses}{f', the reader {answer[0]}' if answer else ''}"
        if any(status not in (0, 6) for status in statuses):
            tally.wrong.append(f"{where}: {told.strip()[-100:]}")
        device.again()
        for day in (0, 1, 2, 3):
            have, why = program.found(store, Scope(day + 1, first=day), sent)
            tally.judge(have, why, sent.of_day(day), f"{where}, day {day + 1}")
    finally:
        device.give()
        device.remove()


def told_once():
    """The next block of a folder fails once, and one sync is told."""
    tally = Tally("h", "a folder's block that can't be written for a moment, which one sync is told")
    zeros(tally, "trials", "met a write error", "answered 0", "acknowledged fields lost", "fields torn")
    chance = random.Random(f"{seed}h")
    for trial in range(max(1, trials // 5)):
        for kind in ("two lanes", "two workers", "a reader", "two datasets", "one alone"):
            tally.add("trials")
            told_once_trial(kind, chance.choice([0.1, 0.2, 0.3]), tally)
    return tally.tell()


CHANGES = "openat,mkdir,rename,unlink,rmdir,pwrite64,write,ftruncate,fsync,fdatasync"


def before_syncs(words, given, store):
    """The calls in front of each sync of a command: by name, and by their number among the calls of this name."""
    with open(f"{work}/input", "wb") as file:
        file.write(given)
    ended = subprocess.run(["strace", "-f", "-y", "-qq", "-s", "0", "-e", "signal=none", "-e", f"trace={CHANGES}", "-o", f"{work}/told", "--", program.path, *words],
                           stdin=open(f"{work}/input", "rb"), capture_output=True)
    assert ended.returncode == 0, ended.stderr
    counted, found, last = {}, [], None
    for line in open(f"{work}/told", errors="replace"):
        parts = re.match(r"\d+ +(\w+)\(", line)
        if parts:
            if parts[1] in SYNCS and last and last not in found:
                found.append(last)
            counted[parts[1]] = counted.get(parts[1], 0) + 1
            last = (parts[1], counted[parts[1]])
    return found


def journal_command(kind, store, sent):
    """The words and the input of a command, and the places of its fields."""
    if kind == "create":
        return ["create", store], SCHEMA, []
    if kind == "archive":
        given, places = fields(sent, [*range(10, 40), *range(650, 660)])
        return archive_words(store), given, places
    return [kind, store, dataset_of(0)], b"", []


def journal_base(kind, store, sent):
    if kind == "create":
        return
    made(store)
    for _ in range(3):
        archived(store, sent, range(20))


def journal_trial(kind, stop, tally):
    """A command that stands behind this call while the journal can't be written and its commit fails; then it goes on."""
    device = Spots(f"{work}/device", True)
    try:
        store, sent = f"{device.mount}/store", Sent()
        journal_base(kind, store, sent)
        words, given, places = journal_command(kind, store, sent)
        with open(f"{work}/input", "wb") as file:
            file.write(given)
        journal = device.blocks_of(8)

        def then():
            device.take(journal)
            time.sleep(1.7)
            device.give()

        if os.path.exists(f"{work}/told"):
            os.unlink(f"{work}/told")
        victim = subprocess.Popen(["strace", "-f", "-y", "-qq", "-o", f"{work}/told", "-e", f"trace={CHANGES}", "-e", f"inject={stop[0]}:signal=STOP:when={stop[1]}",
                                   "--", program.path, *words], stdin=open(f"{work}/input", "rb"), stdout=subprocess.DEVNULL, stderr=subprocess.PIPE)
        stood, told = stopped_once(victim, f"{work}/told", then)
        status = victim.returncode
        tally.add("trials")
        tally.add("stood", stood)
        tally.add("answered 0", status == 0)
        where = f"{kind} behind {stop[0]} {stop[1]}, status {status}"
        if status not in (0, 6):
            tally.wrong.append(f"{where}: {told.strip()[-100:]}")
        if status == 0:
            sent.acknowledge(places)
        device.again()
        if kind == "wipe":
            have, why = program.found(store, Scope(1), Sent())
            if have is None or (status == 0 and any(have.values())):
                tally.wrong.append(f"{where}: {why or 'what was wiped is there'}")
        else:
            look_again(kind, status, store, sent, tally, where)
    finally:
        device.give()
        device.remove()


def journal():
    """A journal whose commit fails in the background, in front of each sync of a command."""
    tally = Tally("i", "a journal that can't be written for some seconds, in front of each sync")
    zeros(tally, "trials", "stood", "answered 0", "acknowledged fields lost", "fields torn", "acknowledged stores lost")
    for kind in ("create", "archive", "purge", "wipe"):
        plain, sent = f"{work}/journal/{kind}", Sent()
        os.makedirs(f"{work}/journal", exist_ok=True)
        journal_base(kind, plain, sent)
        words, given, _ = journal_command(kind, plain, sent)
        stops = before_syncs(words, given, plain)
        for stop in stops[::max(1, len(stops) // trials)]:
            journal_trial(kind, stop, tally)
    return tally.tell()


# (j) what people and administrators do


def in_place_of_lock(store, sent, tally, way):
    """An archive that waits for its input, while the file `lock` is removed, or replaced, and another archive comes."""
    first, places = fields(sent, range(60), 20_000)
    last, more = fields(sent, range(60, 70), 20_000)
    holder = subprocess.Popen([program.path, *archive_words(store)], stdin=subprocess.PIPE, stdout=subprocess.DEVNULL, stderr=subprocess.PIPE)
    statuses = []
    try:
        holder.stdin.write(first)
        holder.stdin.flush()
        waits_for_input(holder.pid, holder.stdin)
        lock = f"{store}/{dataset_of(0)}/lock"
        if way == "removed":
            os.unlink(lock)
        else:
            open(f"{lock}.other", "w").close()
            os.rename(f"{lock}.other", lock)
        statuses.append(archived(store, sent, range(70, 90))[0])
        holder.communicate(last, 60)
    except BrokenPipeError:
        holder.wait()
    statuses.append(holder.returncode)
    if holder.returncode == 0:
        sent.acknowledge(places + more)
    tally.add("trials")
    tally.add("answered 0", statuses.count(0))
    where = f"`lock` {way} under an archive, statuses {statuses}"
    if any(status not in (0, 6) for status in statuses):
        tally.wrong.append(where)
    tally.judge(*program.found(store, Scope(1), sent), sent, where)
    status, told = archived(store, sent, range(90, 100))
    if status != 0:
        tally.wrong.append(f"{where}: an archive behind it ended with {status}: {told.strip()[-100:]}")
    tally.judge(*program.found(store, Scope(1), sent), sent, f"{where}, gone on")


def out_of_reach(tally):
    """A dataset that can't be reached is absent for no command: a link to what isn't there, a file, a folder that has lost its table."""
    request = Scope(1).request.replace(b"expver=0001", b"expver=0002")
    for title in ("a link to a folder that isn't there", "a file", "a folder without its table"):
        store, sent = f"{work}/reach/store", Sent()
        shutil.rmtree(f"{work}/reach", ignore_errors=True)
        os.mkdir(f"{work}/reach")
        made(store)
        # the base has other fields of the same keys
        archived(store, sent, range(5))
        given, _ = fields(sent, range(5))
        status, _, told = program.run(["archive", store, "--with", "class=od,expver=0002"], given)
        assert status == 0, told
        folder = f"{store}/{dataset_of(0).replace('0001', '0002')}"
        if title == "a folder without its table":
            os.unlink(f"{folder}/toc")
        else:
            os.rename(folder, f"{work}/reach/elsewhere")
            os.symlink(f"{work}/reach/unmounted", folder) if title.startswith("a link") else open(folder, "w").close()
        for words, told in ((["retrieve", store], request), (["retrieve", store, "--over", "expver=0001"], request), (["list", store], b"list"), (["axes", store], b"list"),
                            (["stats", store], b""), (["cubes", store], b"list"), (["archive", store, "--with", "class=od,expver=0002"], given)):
            status, out, report = program.run(words, told)
            tally.add("trials")
            if status != 6:
                tally.wrong.append(f"{title} in the place of a dataset: {' '.join(words[:1] + words[2:])} ended with {status}: {report.strip()[-80:]}")


def second_user(tally):
    """Two users of one group write to one dataset in turn."""
    base, sent = f"{work}/group", Sent()
    shutil.rmtree(base, ignore_errors=True)
    for path in (os.path.dirname(work), work):
        os.chmod(path, 0o711)
    os.mkdir(base)
    os.chown(base, 54_321, 54_320)
    os.chmod(base, 0o2775)
    store = f"{base}/store"
    users = [{"user": user, "group": 54_320, "extra_groups": [], "umask": 0o022} for user in (54_321, 54_322)]

    def give_folders():
        """The folders are the group's, as an administrator sets it; files stay as they were made."""
        for at, _, _ in os.walk(store):
            os.chmod(at, 0o2775)

    status, _, told = program.run(["create", store], SCHEMA, **users[0])
    if status != 0:
        tally.wrong.append(f"a create by one of two users ended with {status}: {told.strip()[-80:]}")
        return
    for turn in range(4):
        give_folders()
        status, told = archived(store, sent, range(turn, 20), **users[turn % 2])
        tally.add("trials")
        if status != 0:
            tally.wrong.append(f"an archive by the {('first', 'second')[turn % 2]} of two users of a group ended with {status}: {told.strip()[-80:]}")
        tally.judge(*program.found(store, Scope(1), sent, **users[1 - turn % 2]), sent, "a retrieve by the other user")


def without_descriptors(tally):
    """Commands that begin without some of the descriptors 0 to 2."""
    for closed in ((0,), (1,), (2,), (0, 1, 2), (1, 2)):
        store, sent = f"{work}/closed", Sent()
        shutil.rmtree(store, ignore_errors=True)
        made(store)
        archived(store, sent, range(10))
        given, places = fields(sent, range(20))
        with open(f"{work}/input", "wb") as file:
            file.write(given)
        for words in (archive_words(store), ["retrieve", store], ["stats", store], ["purge", store, dataset_of(0)]):
            line = " ".join(f"'{word}'" for word in [program.path, *words])
            ended = subprocess.run(["bash", "-c", f"exec {line} {' '.join(f'{number}<&-' for number in closed)}"], stdin=open(f"{work}/input", "rb"),
                                   stdout=subprocess.DEVNULL, stderr=subprocess.DEVNULL)
            tally.add("trials")
            if words[0] == "archive" and ended.returncode == 0:
                sent.acknowledge(places)
            if ended.returncode < 0 or ended.returncode > 9:
                tally.wrong.append(f"{words[0]} without the descriptors {closed} ended with {ended.returncode}")
        locks = [str(path) for path in pathlib.Path(store).rglob("lock") if path.stat().st_size]
        if locks:
            tally.wrong.append(f"without the descriptors {closed} something was written to {os.path.basename(os.path.dirname(locks[0]))}/lock")
        tally.judge(*program.found(store, Scope(1), sent), sent, f"commands without the descriptors {closed}")


def short_files(tally):
    """`ulimit -f`, as a shell sets it: the signal isn't ignored."""
    store, sent = f"{work}/short", Sent()
    made(store)
    archived(store, sent, range(10))
    for number in (0, 300, 400, 1000, 3000, 5000):
        status, told = archived(store, sent, range(10, 60), preexec_fn=lambda: resource.setrlimit(resource.RLIMIT_FSIZE, (number, number)))
        tally.add("trials")
        if status not in (0, 6) or not told:
            tally.wrong.append(f"an archive whose files may have {number} octets ended with {status}, and told {told.strip()[-60:]!r}")
        tally.judge(*program.found(store, Scope(1), sent), sent, f"files of {number} octets at most")


def read_only(tally):
    """A store on a medium whose files know no sync."""
    if os.geteuid() != 0 or not shutil.which("mksquashfs"):
        print("    a read-only medium is left out: it takes root and mksquashfs")
        return
    store, sent, place = f"{work}/fixed/store", Sent(), f"{work}/medium"
    os.mkdir(f"{work}/fixed")
    made(store)
    for _ in range(2):
        archived(store, sent, range(20))
    quietly(["mksquashfs", f"{work}/fixed", f"{work}/fixed.image", "-quiet", "-no-progress"])
    os.mkdir(place)
    try:
        quietly(["mount", "-t", "squashfs", "-o", "loop,ro", f"{work}/fixed.image", place])
    except subprocess.CalledProcessError:
        print("    a read-only medium is left out: it takes loop devices and squashfs")
        return
    try:
        tally.add("trials")
        tally.judge(*program.found(f"{place}/store", Scope(1), sent), sent, "a retrieve on squashfs")
        for words in (["list"], ["axes"], ["stats"], ["cubes"]):
            status, out, told = program.run([*words, f"{place}/store"], b"list")
            tally.add("trials")
            if status != 0 or not out:
                tally.wrong.append(f"{words[0]} on squashfs ended with {status}: {told.strip()[-80:]}")
        status, told = archived(f"{place}/store", sent, range(3))
        if status != 6:
            tally.wrong.append(f"an archive on squashfs ended with {status}: {told.strip()[-80:]}")
    finally:
        unmount(place)


def people():
    tally = Tally("j", "`lock` removed, datasets out of reach, two users, descriptors 0 to 2 closed, ulimit -f, a read-only medium")
    zeros(tally, "trials", "answered 0", "acknowledged fields lost", "fields torn")
    for turn in range(2 * max(1, trials // 10)):
        store, sent = f"{work}/locked", Sent()
        shutil.rmtree(store, ignore_errors=True)
        made(store)
        archived(store, sent, range(100, 110))
        in_place_of_lock(store, sent, tally, ("removed", "replaced")[turn % 2])
    out_of_reach(tally)
    if os.geteuid() == 0:
        second_user(tally)
    without_descriptors(tally)
    short_files(tally)
    read_only(tally)
    return tally.tell()


# what a part needs


def has_loops():
    return os.geteuid() == 0 and os.path.exists("/dev/loop-control") and shutil.which("mkfs.ext4") is not None and shutil.which("losetup") is not None


def has_strace():
    return shutil.which("strace") is not None and subprocess.run(["strace", "-qq", "-o", "/dev/null", "true"], capture_output=True).returncode == 0


def needs(part):
    """Why a part can't be run here, or None."""
    if part == "a" and not (has_loops() and os.access("/proc/sys/vm/drop_caches", os.W_OK)):
        return "it takes root, loop devices and mkfs.ext4"
    if part in "hi" and not (has_loops() and shutil.which("debugfs")):
        return "it takes root, loop devices, mkfs.ext4 and debugfs"
    if part in "aefghi" and not has_strace():
        return "it takes strace"
    if part == "b" and os.geteuid() != 0:
        return "it takes root, to mount a small RAM disk"
    return None


PARTS = {"a": write_errors, "b": full_disk, "c": limits, "d": processes, "e": power_cut, "f": failed_syncs, "g": renewals, "h": told_once, "i": journal, "j": people}


def main():
    for number in (signal.SIGINT, signal.SIGTERM, signal.SIGHUP):
        signal.signal(number, stop)
    wrong = False
    for part in parts:
        why = needs(part)
        if why:
            print(f"({part}) is skipped: {why}")
            continue
        try:
            wrong |= PARTS[part]()
        except Exception as error:
            print(f"({part}) didn't come to its end: {type(error).__name__}: {error}")
            wrong = True
    sys.exit(bool(wrong))


main()
