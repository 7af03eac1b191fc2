#!/usr/bin/env bash
# A first walk through the store: makes one in a new folder, archives the sample streams, retrieves all of them, compares the
# bytes, shows what the store holds, and runs a writer and a reader side by side in it. FDB names the program, where it isn't to be built here; a folder may be given.
set -eu
here=$(cd "$(dirname "$0")" && pwd)
fdb=${FDB:-$here/../fdb}
work=${1:-$(mktemp -d)}
store=$work/store

step() {
  echo
  echo "\$ $*"
}

step "fdb create STORE < samples/schema"
"$fdb" create "$store" < "$here/schema"
step "fdb archive STORE --with class=od,expver=0001 < samples/forecast.grib2"
"$fdb" archive "$store" --with class=od,expver=0001 < "$here/forecast.grib2"
step "fdb retrieve STORE < samples/request > out.grib2"
"$fdb" retrieve "$store" < "$here/request" > "$work/out.grib2"
cmp "$here/forecast.grib2" "$work/out.grib2"
echo "out.grib2 has the $(wc -c < "$work/out.grib2") bytes of forecast.grib2"
step "fdb archive STORE --with class=od,expver=0001 < samples/ensemble.grib2"
"$fdb" archive "$store" --with class=od,expver=0001 < "$here/ensemble.grib2"
step "fdb retrieve STORE < samples/members > members.grib2"
"$fdb" retrieve "$store" < "$here/members" > "$work/members.grib2"
step "fdb retrieve STORE < samples/members_over_time > members_over_time.grib2"
"$fdb" retrieve "$store" < "$here/members_over_time" > "$work/members_over_time.grib2"
cat "$work/members.grib2" "$work/members_over_time.grib2" | cmp "$here/ensemble.grib2" -
echo "both have the $(wc -c < "$here/ensemble.grib2") bytes of ensemble.grib2"
step "echo list,levelist=85000 | fdb list STORE"
echo list,levelist=85000 | "$fdb" list "$store"
step "echo list,number=9 | fdb list STORE"
echo list,number=9 | "$fdb" list "$store"
step "echo list | fdb axes STORE"
echo list | "$fdb" axes "$store"
step "fdb stats STORE"
"$fdb" stats "$store"
step "fdb split < samples/several.grib2 | fdb archive STORE --with class=od,expver=0002"
"$fdb" split < "$here/several.grib2" | "$fdb" archive "$store" --with class=od,expver=0002
step "(cat samples/script; fdb generate 2) | fdb session STORE > found.grib2"
(cat "$here/script"; "$fdb" generate 2) | "$fdb" session "$store" > "$work/found.grib2"
step "fdb stats STORE"
"$fdb" stats "$store"
step "fdb trial OTHER 400 --workers 4"
"$fdb" trial "$work/other" 400 --workers 4
echo
echo "The store stands in $store: $(find "$store" -type f | wc -l) files, $(du -sb "$store" | cut -f1) bytes."
