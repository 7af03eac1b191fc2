#!/usr/bin/env bash
# What FDB5 and fdb make of the same trouble, side by side: the eighteen fields of samples/forecast.grib2 are archived in both, and
# then a key is asked for that isn't there, the table is cut, and one octet is changed at a time in each file; each time all
# eighteen are asked for. TRIES (60) places of each file are drawn by SEED (1). Wants fdb5 and ecCodes (Debian: fdb5, libeccodes-tools)
# and FDB, the program. Prints a table: how many tries were told by the exit status, gave out another octet with status 0, gave out
# fewer fields with status 0, or gave out all eighteen as they were.
set -eu
top=$(cd "$(dirname "$0")/.." && pwd)
fdb=${FDB:-$top/fdb}
if ! command -v fdb-read > /dev/null || ! command -v grib_set > /dev/null; then
  echo "beside_fdb5: fdb5 or ecCodes isn't here, so nothing was compared"
  exit 0
fi
work=$(mktemp -d)
trap 'rm -rf "$work"' EXIT
cd "$work"
mkdir root
cat > schema5 <<'SCHEMA'
param: Param; step: Step; date: Date; levelist: Double; time: Time;
[ class, expver, stream, date, time, domain? [ type, levtype [ step, levelist?, param ]]]
SCHEMA
cat > config.yaml <<CONFIG
type: local
engine: toc
schema: $work/schema5
spaces:
- handler: Default
  roots:
  - path: $work/root
CONFIG
export FDB5_CONFIG_FILE=$work/config.yaml
grib_set -s setLocalDefinition=1,localDefinitionNumber=1,class=od,type=fc,stream=oper,expver=0001 "$top/samples/forecast.grib2" fdb5.grib2
cp "$top/samples/forecast.grib2" fdb.grib2
head5=retrieve,class=od,expver=0001,stream=oper,date=20240101,time=0000,domain=g,type=fc,levtype=pl
echo "$head5,step=0/6/12,levelist=850/500/250,param=130/131" > request5
echo "$head5,step=0/18,levelist=850,param=130" > missing5
echo "retrieve,class=od,expver=0001,date=20240101,time=00,centre=98,type=2,levtype=100,step=0/18,levelist=85000,param=0.0.0" > missing
fdb-write fdb5.grib2 > /dev/null 2>&1
"$fdb" create store < "$top/samples/schema" 2> /dev/null
"$fdb" archive store --with class=od,expver=0001 < fdb.grib2 2> /dev/null

export fdb top
python3 - "${TRIES:-60}" "${SEED:-1}" <<'PY'
import glob, os, random, subprocess, sys

tries, seed = int(sys.argv[1]), int(sys.argv[2])
program, top = os.environ["fdb"], os.environ["top"]


def read5(request="request5"):
    if os.path.exists("out"):
        os.remove("out")
    ran = subprocess.run(["fdb-read", request, "out"], stdout=subprocess.DEVNULL, stderr=subprocess.DEVNULL)
    return ran.returncode, open("out", "rb").read() if os.path.exists("out") else b""


def read(request=f"{top}/samples/request"):
    ran = subprocess.run([program, "retrieve", "store"], stdin=open(request), stdout=subprocess.PIPE, stderr=subprocess.DEVNULL)
    return ran.returncode, ran.stdout


def kind(answer, whole):
    status, out = answer
    if status:
        return "told"
    if out == whole:
        return "whole"
    return "another octet" if len(out) == len(whole) else "fewer fields"


def largest(pattern):
    return max(glob.glob(pattern, recursive=True), key=os.path.getsize)


def line(what, kinds):
    print(f"{what:44}" + "".join(f"{kinds.count(it):>15}" for it in ("told", "another octet", "fewer fields", "whole")))


def flips(call, path, whole):
    kept, kinds = open(path, "rb").read(), []
    for at in sorted(random.Random(seed).sample(range(len(kept)), min(tries, len(kept)))):
        with open(path, "wb") as it:
            it.write(kept[:at] + bytes([kept[at] ^ 1]) + kept[at + 1 :])
        kinds.append(kind(call(), whole))
    with open(path, "wb") as it:
        it.write(kept)
    return kinds


def cuts(call, path, whole):
    kept, kinds = open(path, "rb").read(), []
    for n in sorted(random.Random(seed).sample(range(len(kept)), min(tries, len(kept)))):
        with open(path, "wb") as it:
            it.write(kept[:n])
        kinds.append(kind(call(), whole))
    with open(path, "wb") as it:
        it.write(kept)
    return kinds


whole5, whole = open("fdb5.grib2", "rb").read(), open("fdb.grib2", "rb").read()
assert read5() == (0, whole5) and read() == (0, whole)
for name, answer in ("FDB5", read5("missing5")), ("fdb", read("missing")):
    print(f"{name}: two keys of which one is there: status {answer[0]}, {len(answer[1])} octets")
print(f"{'':44}" + "".join(f"{it:>15}" for it in ("told", "another octet", "fewer fields", "whole")))
for name, call, all_of, table, index, fields in (
    ("FDB5", read5, whole5, "root/**/toc", "root/**/*.index", "root/**/*.data"),
    ("fdb", read, whole, "store/*/toc", "store/*/*.index", "store/*/*.fields"),
):
    line(f"{name}: table cut", cuts(call, largest(table), all_of))
    line(f"{name}: an octet of the table changed", flips(call, largest(table), all_of))
    line(f"{name}: an octet of the index changed", flips(call, largest(index), all_of))
    line(f"{name}: an octet of the fields' file changed", flips(call, largest(fields), all_of))
PY
