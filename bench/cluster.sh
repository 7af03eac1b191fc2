#!/usr/bin/env bash
# One store on two machines: a volume of GlusterFS of three copies (three bricks in a temporary folder) and two mounts of it, each by a client
# process of its own, as two machines have. Twice: with the caches of clients off, as `docs/SHARED.md` names the options, and with GlusterFS's defaults.
#   in turn       an archive over the one mount, and right behind it a retrieve over the other one, ROUNDS (20) times each way. Without caches no
#                 answer may be 6; with caches one that is 6 has to be right when it is run again
#   side by side  two archives at once over the two mounts, into one dataset (one may end with 6) and into two; purges and wipes over the one
#                 mount while the other one reads: each answer is that of one moment, or 6
#   bricks        one brick is killed (kill -9) in the middle of an archive, then two; both come back and the volume heals
#   stalls        all bricks stand still (SIGSTOP) for longer than a client waits (network.ping-timeout, 5 s here), while an archive has its lock; then the
#                 other mount writes, and the first archive goes on
#   clients       the client process of a mount, and the program, are killed in the middle of an archive; the other mount writes at once
# All that was acknowledged has to be there over both mounts, octet for octet, and no store is told to be damaged. Takes root on Linux, fuse and
# Debian's glusterfs-server; about 5 minutes. All that it mounts and starts is in name spaces of its own (mounts, processes, network) and goes with them.
# PARTS (in_turn side_by_side readers_beside bricks clients stalls) names those that are run, ROUNDS says how often, STRICT (on) is
# the volume's option client.strict-locks, SEED where the numbers begin,
# FDB names the program, where it isn't to be built here, WORK a folder for what is made (/tmp). No part of the gate.
set -eu
top=$(cd "$(dirname "$0")/.." && pwd)
why=
[ "$(uname -s)" = Linux ] && [ "$(id -u)" = 0 ] || why="root on Linux"
[ -c /dev/fuse ] || why=${why:-/dev/fuse}
for program in gluster glusterd mount.glusterfs ip unshare; do command -v "$program" > /dev/null || why=${why:-"$program (Debian: glusterfs-server, iproute2, util-linux)"}; done
[ -n "$why" ] || unshare --mount --net --pid --fork --mount-proc true 2> /dev/null || why="name spaces of its own"
[ -z "$why" ] || { echo "cluster.sh takes $why, which isn't here" >&2; exit 0; }
fdb=${FDB:-$top/fdb}
"$fdb" pick step=0 < /dev/null > /dev/null 2>&1 || true
[ "$fdb" != "$top/fdb" ] || fdb=$top/crates/fd_program/out/fd_program
work=$(mktemp -d "${WORK:-/tmp}/fdb-cluster.XXXXXX")
child=
clean() {
  trap - EXIT INT TERM HUP
  [ -z "$child" ] || kill -KILL "$child" 2> /dev/null || true
  [ -z "$child" ] || wait "$child" 2> /dev/null || true
  rm -rf --one-file-system "$work"
}
trap clean EXIT
trap 'exit 2' INT TERM HUP
cp "$fdb" "$work/program"
export PYTHONDONTWRITEBYTECODE=1
cat > "$work/cluster.py" <<'PY'
import collections, os, pathlib, random, re, signal, subprocess, sys, threading, time

work, rounds, seed, bench, chosen, strict = *sys.argv[1:2], int(sys.argv[2]), *sys.argv[3:5], sys.argv[5].split(), sys.argv[6]
sys.path.insert(0, bench)
from sent import SCHEMA, Program, Scope, Sent, archive_words, dataset_of

ADDRESS = "10.77.0.1"
OFF = ["performance.quick-read", "performance.io-cache", "performance.read-ahead", "performance.stat-prefetch", "performance.write-behind",
       "performance.open-behind", "performance.readdir-ahead", "performance.nl-cache"]
program, chance = Program(f"{work}/program"), random.Random(seed)
mounts = [f"{work}/one", f"{work}/two"]
counts, wrong = collections.Counter(), []


def quietly(words, **others):
    ended = subprocess.run(words, stdout=subprocess.PIPE, stderr=subprocess.STDOUT, text=True, timeout=90, **others)
    if ended.returncode != 0:
        raise OSError(f"{' '.join(words)[:200]}: {ended.stdout.strip()[-300:]}")
    return ended.stdout


def gluster(*words):
    return quietly(["gluster", "--mode=script", *words])


def mount(at, caches):
    """Mounts the volume, by a client process of its own."""
    quietly(["mount", "-t", "glusterfs", *([] if caches else ["-o", "attribute-timeout=0,entry-timeout=0,negative-timeout=0"]), f"{ADDRESS}:/fields", at])


def client_of(at):
    """The process that serves a mount."""
    for process in pathlib.Path("/proc").glob("[0-9]*/cmdline"):
        try:
            words = process.read_bytes().split(b"\0")
        except OSError:
            continue
        if b"glusterfs" in words[0] and at.encode() in words:
            return int(process.parent.name)
    raise OSError(f"no client of {at}")


def brick(number):
    """The process of a brick."""
    for line in gluster("volume", "status", "fields").splitlines():
        parts = line.split()
        if f"/brick{number}" in line and parts[-1].isdigit():
            return int(parts[-1])
    raise OSError(f"brick {number} doesn't run")


def begun():
    """The bricks, the volume and its daemon, in name spaces of this run's own."""
    quietly(["ip", "link", "set", "lo", "up"])
    # a volume's bricks may not be at 127.0.0.1
    quietly(["ip", "address", "add", f"{ADDRESS}/32", "dev", "lo"])
    quietly(["mount", "-t", "tmpfs", "-o", "size=1500m", "tmpfs", f"{work}/disks"])
    # all of /run, where its daemons put what they are found by
    for name, place in (("state", "/var/lib/glusterd"), ("run", os.path.realpath("/var/run")), ("log", "/var/log/glusterfs")):
        os.makedirs(place, exist_ok=True)
        os.makedirs(f"{work}/disks/{name}")
        quietly(["mount", "--bind", f"{work}/disks/{name}", place])
    os.makedirs("/var/run/gluster")
    for number in range(3):
        os.makedirs(f"{work}/disks/brick{number}")
    for at in mounts:
        os.makedirs(at, exist_ok=True)
    quietly(["glusterd"])
    for _ in range(50):
        if subprocess.run(["gluster", "--mode=script", "volume", "list"], stdout=subprocess.DEVNULL, stderr=subprocess.DEVNULL).returncode == 0:
            break
        time.sleep(0.2)
    gluster("volume", "create", "fields", "replica", "3", *(f"{ADDRESS}:{work}/disks/brick{number}" for number in range(3)), "force")
    # a client waits no longer than this for a brick that doesn't answer
    gluster("volume", "set", "fields", "network.ping-timeout", "5", "client.strict-locks", strict)


def until_online():
    """Waits until all bricks answer, and the process that heals them."""
    for _ in range(100):
        if len(re.findall(r"^(?:Brick|Self-heal).* Y +\d+ *$", gluster("volume", "status", "fields"), re.M)) == 4:
            break
        time.sleep(0.2)
    time.sleep(1)


def fields(sent, keys, octets=4):
    pairs = [sent.field(key, octets) for key in keys]
    return b"".join(whole for whole, _ in pairs), [place for _, place in pairs]


def archived(store, sent, keys, may_refuse=False, where="an archive", octets=4):
    given, places = fields(sent, keys, octets)
    status, _, told = program.run(archive_words(store), given)
    counts[f"archives {status}"] += 1
    if status == 0:
        sent.acknowledge(places)
    elif status != 6 or not may_refuse:
        wrong.append(f"{where} ended with {status}: {told.strip()[-120:]}")
    return status


def looked(at, store, scope, sent, where, caches):
    """A retrieve over a mount, held against what was acknowledged. With caches it may be run again once."""
    for turn in range(2):
        have, why = program.found(f"{at}/{store}", scope, sent)
        if have is not None or "ended with 6:" not in why or not caches:
            break
        counts["refused, and run again"] += 1
        time.sleep(1.1)
    counts["answers"] += 1
    if have is None:
        wrong.append(f"{where}: {why}")
        return
    lost, torn = sent.judge(have)
    if lost or torn:
        wrong.append(f"{where}: {lost} of {len(sent.least)} acknowledged fields lost, {torn} torn")


def looked_over_both(store, scope, sent, where):
    """Over both mounts, once nothing writes; a cache may be older than a second."""
    for at in mounts:
        looked(at, store, scope, sent, f"{where}, over {os.path.basename(at)}", True)


def made(name):
    status, _, told = program.run(["create", f"{mounts[0]}/{name}"], SCHEMA)
    assert status == 0, f"create ended with {status}: {told}"
    return Sent()


def in_turn(caches):
    sent = made(f"turns{caches:d}")
    for turn in range(2 * rounds):
        writes, reads = mounts[turn % 2], mounts[1 - turn % 2]
        where = f"turn {turn}"
        # the other mount's entries may still be in this one's cache
        status = archived(f"{writes}/turns{caches:d}", sent, [turn % 6, 650 + turn % 6, 3], caches, f"{where}, an archive")
        if status == 6:
            time.sleep(1.1)
            archived(f"{writes}/turns{caches:d}", sent, [turn % 6, 650 + turn % 6, 3], False, f"{where}, an archive that was run again")
        looked(reads, f"turns{caches:d}", Scope(2), sent, f"{where}, a retrieve right behind an archive over the other mount", caches)
        if turn % 6 == 5:
            # so that the table stays short
            status, _, told = program.run(["purge", f"{reads}/turns{caches:d}", dataset_of(1)])
            counts[f"purges {status}"] += 1
            if status not in ((0, 6) if caches else (0,)):
                wrong.append(f"{where}, a purge right behind an archive over the other mount ended with {status}: {told.strip()[-120:]}")
            program.run(["purge", f"{reads}/turns{caches:d}", dataset_of(0)])
            time.sleep(1.1 if caches else 0)
        status, out, told = program.run(["stats", f"{reads}/turns{caches:d}"])
        counts["answers"] += 1
        if status not in ((0, 6) if caches else (0,)):
            wrong.append(f"{where}, stats ended with {status}: {told.strip()[-120:]}")
    looked_over_both(f"turns{caches:d}", Scope(2), sent, "at the end of the turns")


def side_by_side(caches):
    sent = made(f"sides{caches:d}")
    archived(f"{mounts[0]}/sides{caches:d}", sent, range(20))
    time.sleep(1.1 if caches else 0)
    for turn in range(max(1, rounds // 2)):
        is_one = turn % 2 == 0
        runs = []
        for which, at in enumerate(mounts):
            keys = [key + (0 if is_one else 650 * which) for key in range(which, 130, 7 if is_one else 5)]
            given, places = fields(sent, keys)
            run = subprocess.Popen([program.path, *archive_words(f"{at}/sides{caches:d}")], stdin=subprocess.PIPE, stdout=subprocess.DEVNULL, stderr=subprocess.PIPE)
            runs.append((run, given, places))
        for run, given, _ in runs:
            try:
                run.stdin.write(given)
                run.stdin.close()
            except BrokenPipeError:
                pass
        statuses = []
        for run, _, places in runs:
            told = run.stderr.read().decode(errors="replace")
            statuses.append(run.wait())
            if statuses[-1] == 0:
                sent.acknowledge(places)
            elif statuses[-1] != 6:
                wrong.append(f"side by side {turn}: status {statuses[-1]}: {told.strip()[-120:]}")
        counts[f"side by side, {'one dataset' if is_one else 'two datasets'}, {statuses.count(0)} ended well"] += 1
        time.sleep(1.1 if caches else 0)
        for at in mounts:
            looked(at, f"sides{caches:d}", Scope(2), sent, f"side by side {turn}, statuses {statuses}, over {os.path.basename(at)}", caches)


def readers_beside(caches):
    """A writer over the one mount archives the one half of the keys, masks and purges it, and wipes it; then the other half. The other mount reads."""
    made(f"beside{caches:d}")
    sent, over = Sent(), threading.Event()
    # each state with its begin and its end, as the writer knows it
    states = [[{}, 0.0, None]]

    def wrote(words, given, state):
        states.append([state, time.monotonic(), None])
        for turn in range(40):
            status, _, told = program.run(words, given)
            if status == 0:
                states[-2][2] = time.monotonic()
                counts["writers beside readers"] += 1
                return
            if status != 6:
                break
            counts["writers beside readers, run again"] += 1
            time.sleep(0.3)
        wrong.append(f"beside readers, {words[0]} ended with {status}: {told.strip()[-120:]}")
        over.set()

    def write():
        for turn in range(max(2, rounds // 4)):
            store, keys = f"{mounts[0]}/beside{caches:d}", range(65 * (turn % 2), 65 * (turn % 2) + 65)
            for _ in range(2):
                if over.is_set():
                    return
                batch = {key: sent.field(key)[0] for key in keys}
                wrote(archive_words(store), b"".join(batch.values()), batch)
            wrote(["purge", store, dataset_of(0)], b"", batch)
            wrote(["wipe", store, dataset_of(0)], b"", {})
        over.set()

    writer = threading.Thread(target=write)
    writer.start()
    scope, answers = Scope(1), []
    while not over.is_set():
        since = time.monotonic()
        answers.append((since, *program.found(f"{mounts[1]}/beside{caches:d}", scope, sent), time.monotonic()))
    writer.join()
    for since, have, why, until in answers:
        counts["answers"] += 1
        if have is None:
            counts["refused beside a purge or a wipe"] += "ended with 6:" in why
            if "ended with 6:" not in why:
                wrong.append(f"beside purges and wipes: {why}")
            continue
        # a cache may be a second old
        since -= 1.1 if caches else 0
        fine = [state for state, begin, end in states if begin <= until and (end is None or end >= since)]
        if not any(all(have[key] == state.get(key) for key in scope.keys) for state in fine):
            wrong.append("beside purges and wipes: an answer is that of no moment")


def killed_in_an_archive(at, store, sent, keys, kill):
    """Kills something in the middle of an archive, which reads its input from a pipe. The archive's status."""
    given, places = fields(sent, keys, 60_000)
    run = subprocess.Popen([program.path, *archive_words(f"{at}/{store}")], stdin=subprocess.PIPE, stdout=subprocess.DEVNULL, stderr=subprocess.PIPE)
    half = len(given) * chance.randrange(20, 80) // 100
    try:
        run.stdin.write(given[:half])
        run.stdin.flush()
        kill(run)
        run.stdin.write(given[half:])
        run.stdin.close()
    except BrokenPipeError:
        pass
    try:
        run.wait(90)
    except subprocess.TimeoutExpired:
        wrong.append("an archive doesn't end")
        run.kill()
        run.wait()
    if run.returncode == 0:
        sent.acknowledge(places)
    told = run.stderr.read().decode(errors="replace")
    counts[f"archives {'killed' if run.returncode < 0 else run.returncode}"] += 1
    if run.returncode not in (0, 6, -signal.SIGKILL):
        wrong.append(f"an archive in which something was killed ended with {run.returncode}: {told.strip()[-120:]}")
    return run.returncode


def healed():
    """Starts the bricks that were killed, and waits until the volume has healed."""
    gluster("volume", "start", "fields", "force")
    until_online()
    for _ in range(60):
        time.sleep(1)
        subprocess.run(["gluster", "--mode=script", "volume", "heal", "fields"], stdout=subprocess.DEVNULL, stderr=subprocess.DEVNULL)
        told = subprocess.run(["gluster", "--mode=script", "volume", "heal", "fields", "info"], capture_output=True, text=True).stdout
        if re.findall(r"Number of entries: (\S+)", told) == ["0"] * 3:
            return
    wrong.append("the volume doesn't heal")


def bricks(caches):
    sent = made(f"bricks{caches:d}")
    archived(f"{mounts[0]}/bricks{caches:d}", sent, range(650, 700))
    for turn in range(max(1, rounds // 20)):
        gone = chance.randrange(3)
        status = killed_in_an_archive(mounts[turn % 2], f"bricks{caches:d}", sent, range(130), lambda run: os.kill(brick(gone), signal.SIGKILL))
        if status != 0:
            wrong.append(f"an archive of which one brick was killed ended with {status}")
        looked_over_both(f"bricks{caches:d}", Scope(2), sent, "one brick killed")
        if archived(f"{mounts[1 - turn % 2]}/bricks{caches:d}", sent, range(20), caches, "one brick away, an archive") == 6:
            time.sleep(1.1)
            archived(f"{mounts[1 - turn % 2]}/bricks{caches:d}", sent, range(20), False, "one brick away, an archive that was run again")
        healed()
        looked_over_both(f"bricks{caches:d}", Scope(2), sent, "healed")
        pair = chance.sample(range(3), 2)
        killed_in_an_archive(mounts[turn % 2], f"bricks{caches:d}", sent, range(130), lambda run: [os.kill(brick(number), signal.SIGKILL) for number in pair])
        status = archived(f"{mounts[0]}/bricks{caches:d}", sent, range(20), True, "two bricks away, an archive")
        if status == 0:
            wrong.append("an archive ended with 0 while two bricks were away")
        healed()
        looked_over_both(f"bricks{caches:d}", Scope(2), sent, "two bricks killed, healed")
        time.sleep(1.1)
        archived(f"{mounts[1]}/bricks{caches:d}", sent, range(20, 40), False, "healed, an archive")
        looked_over_both(f"bricks{caches:d}", Scope(2), sent, "healed, gone on")


def clients(caches):
    sent = made(f"clients{caches:d}")
    archived(f"{mounts[1]}/clients{caches:d}", sent, range(650, 700))
    for turn in range(max(2, rounds // 10)):
        at, other = mounts[turn % 2], mounts[1 - turn % 2]
        by_program = turn % 4 >= 2
        if by_program:
            killed_in_an_archive(at, f"clients{caches:d}", sent, range(130), lambda run: (time.sleep(chance.random() / 5), run.kill()))
        else:
            victim = client_of(at)
            killed_in_an_archive(at, f"clients{caches:d}", sent, range(130), lambda run: os.kill(victim, signal.SIGKILL))
        # the lock of a client that is gone goes once the bricks know of it
        since = time.time()
        while archived(f"{other}/clients{caches:d}", sent, range(130), True, f"{'the program' if by_program else 'a client'} killed, an archive over the other mount") == 6:
            if time.time() - since > 60:
                wrong.append("the other mount can't write")
                break
            time.sleep(0.5)
        counts["seconds until the other mount wrote"] = max(counts["seconds until the other mount wrote"], round(time.time() - since))
        if not by_program:
            quietly(["umount", "-l", at])
            mount(at, caches)
        looked_over_both(f"clients{caches:d}", Scope(2), sent, "a client or the program killed")


def stalls(caches):
    """All bricks stand still for longer than a client waits, while an archive has its dataset's lock; the bricks forget locks of a client that has
    left them. Then the other mount writes, and the first archive goes on."""
    sent = made(f"stalls{caches:d}")
    archived(f"{mounts[0]}/stalls{caches:d}", sent, range(650, 660))
    archived(f"{mounts[0]}/stalls{caches:d}", sent, range(100, 110))
    for turn in range(max(1, rounds // 10)):
        at, other = mounts[turn % 2], mounts[1 - turn % 2]
        first, places = fields(sent, range(60), 20_000)
        last, more = fields(sent, range(60, 70), 20_000)
        run = subprocess.Popen([program.path, *archive_words(f"{at}/stalls{caches:d}")], stdin=subprocess.PIPE, stdout=subprocess.DEVNULL, stderr=subprocess.PIPE)
        statuses = []
        try:
            run.stdin.write(first)
            run.stdin.flush()
            time.sleep(2)
            still = [brick(number) for number in range(3)]
            for process in still:
                os.kill(process, signal.SIGSTOP)
            time.sleep(9)
            for process in still:
                os.kill(process, signal.SIGCONT)
            time.sleep(4)
            statuses.append(archived(f"{other}/stalls{caches:d}", sent, range(70, 90), True, "behind a stall, an archive over the other mount"))
            run.stdin.write(last)
            run.stdin.close()
        except BrokenPipeError:
            pass
        told = run.stderr.read().decode(errors="replace")
        statuses.append(run.wait())
        if run.returncode == 0:
            sent.acknowledge(places + more)
        elif run.returncode != 6:
            wrong.append(f"an archive over bricks that stood still ended with {run.returncode}: {told.strip()[-120:]}")
        counts[f"archives {run.returncode}"] += 1
        time.sleep(1.1)
        before = len(wrong)
        looked_over_both(f"stalls{caches:d}", Scope(2), sent, f"a stall, statuses {statuses} of the other mount's and of the one that stood")
        if len(wrong) > before:
            # what is lost is told once
            return


def main():
    os.chdir("/")
    begun()
    total = 0
    for caches in (False, True):
        gluster("volume", "set", "fields", *(word for name in OFF for word in (name, "on" if caches and name != "performance.nl-cache" else "off")))
        if not caches:
            gluster("volume", "start", "fields")
            until_online()
        for at in mounts:
            if os.path.ismount(at):
                quietly(["umount", "-l", at])
            mount(at, caches)
        for part in (in_turn, side_by_side, readers_beside, bricks, clients, stalls):
            counts.clear()
            before, since = len(wrong), time.time()
            if part.__name__ not in chosen:
                continue
            part(caches)
            total += counts["answers"] + sum(count for name, count in counts.items() if name.startswith(("archives", "side by side", "writers")))
            told = ", ".join(f"{name}: {count}" for name, count in sorted(counts.items()))
            print(f"{'with caches' if caches else 'without caches'}, {part.__name__.replace('_', ' ')}: {told}; {len(wrong) - before} wrong, {time.time() - since:.0f} s", flush=True)
            for why in wrong[before:before + 6]:
                print(f"  {why}", flush=True)
    print(f"{total} commands over two mounts, {len(wrong)} wrong")
    sys.exit(bool(wrong))


main()
PY
mkdir "$work/disks"
seed=${SEED:-$RANDOM$RANDOM}
echo "seed $seed"
# the first process of the name space waits for all that end there, as a killed brick has to
unshare --mount --net --pid --fork --kill-child --mount-proc --propagation private bash -c 'python3 "$@" & wait $!; exit $?' bash "$work/cluster.py" "$work" "${ROUNDS:-20}" "$seed" "$top/bench" \
  "${PARTS:-in_turn side_by_side readers_beside bricks clients stalls}" "${STRICT:-on}" &
child=$!
status=0
wait "$child" || status=$?
child=
exit "$status"
