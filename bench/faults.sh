#!/usr/bin/env bash
# What the disks of a host may do to a store, done to it; after each of it the store is opened, and all that had been acknowledged
# has to be there byte for byte.
#   (a) write errors: the host's write-back fails between the program's writes and its syncs, while the command stands still. Then
#       what memory had of the files is dropped, or somebody else syncs them first, or neither. An archive, a session of four lanes and
#       a create, TRIALS (20) each, on ext4 with and without a journal, on a loop device over a RAM disk whose room is taken away.
#   (b) a full disk: archives and sessions with 1 to 200 blocks left, or with 0 to 39 files, and again once there is room.
#   (c) few descriptors and short files (ulimit -n, -f).
#   (d) two and four archives at once over one dataset; one that waits, and others beside it; one that is killed.
#   (e) a power cut: from a trace of the system calls of a create, archives, a session and a trial, STATES (2000) of the trees that
#       the disk may hold at some moment, where what no sync had covered is kept, dropped, cut or garbled (`power.py`).
#   (f) the same behind a sync that was made to fail: an archive or a session that met it, then an archive that ended well, then the cut,
#       which leaves what Linux and ext4 were seen to leave then (`power.py`).
#   (g) the calls of a purge and of a wipe: the folder is synced behind the table's new name, or its removal, and before the first file is
#       removed and anything is told; where that sync is made to fail the status is 6, and no file is removed.
#   (h) a block of a folder that can't be written for a moment, which Linux tells to one sync alone: two lanes of a session, two workers, an
#       archive with a `retrieve` beside it, two archives into different datasets of one store, and one archive alone, each as often as TRIALS / 5;
#       on ext4 without a journal, with all syncs held back. Then an unmount and a mount.
#   (i) a journal whose commit fails in the background, in front of each sync of a create, an archive, a purge and a wipe; then an unmount and a mount.
#   (j) what people do: `lock` is removed or replaced under an archive that waits; a dataset is a link to what isn't there, a file, or a folder
#       that has lost its table; two users of a group write in turn; descriptors 0 to 2 are closed; `ulimit -f`; a store on squashfs.
# Prints a line for each part and up to TELL (8) of what was wrong, and ends with 0 only where nothing was. A part that can't be run here is skipped
# with a sentence: (a), (b), (h) and (i) take root on Linux, (a), (h) and (i) loop devices
# and e2fsprogs too, (a) and (e) to (i) strace. PARTS (abcdefghij) names those that are run,
# SEED where the numbers begin, PROGRAM (or FDB) the program, where it isn't to be built here, WORK a folder for what is made (/tmp). All
# that it mounts is in a name space of its own, and goes with it. No part of the gate.
set -eu
top=$(cd "$(dirname "$0")/.." && pwd)
fdb=${PROGRAM:-${FDB:-}}
if [ -z "$fdb" ]; then
  "$top/fdb" pick step=0 < /dev/null > /dev/null 2>&1 || true
  fdb=$top/crates/fd_program/out/fd_program
fi
work=$(mktemp -d "${WORK:-/tmp}/fdb-faults.XXXXXX")
child=

# Ends what was begun here, and what it began.
clean() {
  trap - EXIT INT TERM HUP
  if [ -n "$child" ] && kill -0 "$child" 2> /dev/null; then
    below=$(cat "/proc/$child/task/$child/children" 2> /dev/null || true)
    kill -TERM ${below:-$child} 2> /dev/null || true
    wait "$child" 2> /dev/null || true
  fi
  # where there is no name space of its own
  grep -F " $work/" /proc/mounts | cut -d' ' -f2 | sort -r | while read -r mounted; do umount "$mounted" || true; done
  rm -rf --one-file-system "$work"
}
trap clean EXIT
trap 'exit 2' INT TERM HUP
cp "$fdb" "$work/program"
apart=()
if [ "$(id -u)" = 0 ] && setpriv --pdeathsig KILL unshare --mount --pid --fork --mount-proc true 2> /dev/null; then
  apart=(setpriv --pdeathsig KILL unshare --mount --pid --fork --kill-child --mount-proc --propagation private)
fi
mkdir "$work/files"
export PYTHONDONTWRITEBYTECODE=1
seed=${SEED:-$RANDOM$RANDOM}
echo "seed $seed"
"${apart[@]}" python3 "$top/bench/faults.py" "$work/program" "$work/files" "${PARTS:-abcdefghij}" "${TRIALS:-20}" "${STATES:-2000}" "$seed" "${TELL:-8}" &
child=$!
status=0
wait "$child" || status=$?
child=
exit "$status"
