#!/usr/bin/env bash
# What the first build of the program takes, with nothing kept: a clean clone of what is committed, under a copy of the kit by hard
# links beside it, which has an empty keep. Prints the seconds of the clock and of processors that `./fdb` took until the program ran, and
# the part of the clock's that the processors' make up, once for each number of processors named in PROCESSORS ("2 4"). The copy
# needs a folder on the file system of the kit that may be written: WHERE (the folder that the kit stands in).
set -eu
top=$(cd "$(dirname "$0")/.." && pwd)
kit=$(dirname "$(dirname "$(readlink -f "$(command -v rt)")")")
where=${WHERE:-$(dirname "$kit")}
for processors in ${PROCESSORS:-2 4}; do
  work=$(mktemp -d "$where/first-XXXXXX")
  trap 'rm -rf "$work"' EXIT
  cp -al "$kit" "$work/kit"
  git clone -q "$top" "$work/fdb"
  python3 - "$work" "$processors" <<'PY'
import os, resource, subprocess, sys, time

work, processors = sys.argv[1], int(sys.argv[2])
words = ["taskset", "-c", f"0-{processors - 1}", f"{work}/fdb/fdb", "generate", "1"]
since = time.monotonic()
ran = subprocess.run(words, env={**os.environ, "PATH": f"{work}/kit/bin:{os.environ['PATH']}"}, stdout=subprocess.PIPE)
took = time.monotonic() - since
used = resource.getrusage(resource.RUSAGE_CHILDREN)
spent = used.ru_utime + used.ru_stime
assert ran.returncode == 0 and len(ran.stdout) == 183
print(f"{processors} processors: {took:.0f} s by the clock, {spent:.0f} s of processors, {took * processors / spent:.2f} times the even share")
PY
  rm -rf "$work"
done
