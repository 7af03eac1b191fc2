#!/usr/bin/env bash
# Compares, where ecCodes is installed (Debian: libeccodes-tools), `fdb values` with `grib_get_data` and the numbers of
# `fdb describe` with `grib_dump`, field by field of forecast.grib2, ensemble.grib2 and several.grib2, or of the files given.
# Fields that share a message are taken apart by `fdb split`, here and by ecCodes there. FDB names the program, where it
# isn't to be built here. No part of the gate.
set -eu
here=$(cd "$(dirname "$0")" && pwd)
fdb=${FDB:-$here/../fdb}
if ! command -v grib_get_data > /dev/null || ! command -v grib_dump > /dev/null; then
  echo "ecCodes is not installed (Debian: libeccodes-tools): nothing is compared"
  exit 0
fi
work=$(mktemp -d)
trap 'rm -rf "$work"' EXIT
[ $# -gt 0 ] || set -- "$here/forecast.grib2" "$here/ensemble.grib2" "$here/several.grib2"
cat "$@" > "$work/stream"
"$fdb" split < "$work/stream" > "$work/fields"
"$fdb" split < "$work/fields" | cmp "$work/fields" -
"$fdb" values --decimals 12 < "$work/fields" > "$work/values"
"$fdb" describe < "$work/fields" > "$work/described"
# Seventeen digits write a double exactly enough; a missing value is `missing`.
grib_get_data -F %.17g -m missing "$work/stream" > "$work/data"
grib_dump -O "$work/stream" > "$work/dump"
python3 - "$work" <<'PY'
import re, struct, sys
from fractions import Fraction
work = sys.argv[1]

# ---- values, to the digits of a double
ours = [line.split() for line in open(f"{work}/values")]
theirs = [line.split()[2] for line in open(f"{work}/data") if line.strip() and not line.startswith("Latitude")]
assert len(ours) == len(theirs), (len(ours), len(theirs))
apart = 0
for (message, point, value), other in zip(ours, theirs):
    if value == "-" or other == "missing":
        same = value == "-" and other == "missing"
    else:
        a, b = Fraction(value), Fraction(other)
        same = abs(a - b) <= max(abs(b), 1) * Fraction(1, 10**11)
    if not same:
        apart += 1
        if apart < 10:
            print("values differ at message", message, "point", point, ":", value, other)
print(len(ours), "points compared,", apart, "apart")

# ---- the numbers of the sections
def dumped():
    """The keys of each message as grib_dump writes them, of the form `octets type name = value`."""
    message = None
    for line in open(f"{work}/dump"):
        if re.search(r"MESSAGE \d+", line):
            if message is not None:
                yield message
            message = {}
        found = re.match(r"\s*\d+(?:-\d+)?\s+(\w+)\s*=\s*(\S+)", line)
        if found and message is not None:
            message.setdefault(found.group(1), found.group(2))
    if message:
        yield message

# What templates 4.1, 4.8 and 4.11 (with one time range) have behind the numbers of 4.0.
member = ["typeOfEnsembleForecast", "perturbationNumber", "numberOfForecastsInEnsemble"]
interval = [f"{part}OfEndOfOverallTimeInterval" for part in ("year", "month", "day", "hour", "minute", "second")]
interval += ["numberOfTimeRange", "numberOfMissingInStatisticalProcess", "typeOfStatisticalProcessing",
             "typeOfTimeIncrement", "indicatorOfUnitForTimeRange", "lengthOfTimeRange",
             "indicatorOfUnitForTimeIncrement", "timeIncrement"]
added = {"1": member, "8": interval, "11": member + interval}

blocks = open(f"{work}/described").read().split("message ")[1:]
names = {
    "ident": ["centre", "subCentre", "tablesVersion", "localTablesVersion", "significanceOfReferenceTime", "year",
              "month", "day", "hour", "minute", "second", "productionStatusOfProcessedData", "typeOfProcessedData"],
    "grid": ["gridDefinitionTemplateNumber", None, "numberOfDataPoints", "shapeOfTheEarth",
             "scaleFactorOfRadiusOfSphericalEarth", "scaledValueOfRadiusOfSphericalEarth",
             "scaleFactorOfEarthMajorAxis", "scaledValueOfEarthMajorAxis",
             "scaleFactorOfEarthMinorAxis", "scaledValueOfEarthMinorAxis", "Ni", "Nj",
             "basicAngleOfTheInitialProductionDomain", "subdivisionsOfBasicAngle", "latitudeOfFirstGridPoint",
             "longitudeOfFirstGridPoint", "resolutionAndComponentFlags", "latitudeOfLastGridPoint",
             "longitudeOfLastGridPoint", "iDirectionIncrement", "jDirectionIncrement", "scanningMode"],
    "product": ["productDefinitionTemplateNumber", "parameterCategory", "parameterNumber", "typeOfGeneratingProcess",
                "backgroundProcess", "generatingProcessIdentifier", "hoursAfterDataCutoff", "minutesAfterDataCutoff",
                "indicatorOfUnitOfTimeRange", "forecastTime", "typeOfFirstFixedSurface",
                "scaleFactorOfFirstFixedSurface", "scaledValueOfFirstFixedSurface", "typeOfSecondFixedSurface",
                "scaleFactorOfSecondFixedSurface", "scaledValueOfSecondFixedSurface"],
    "packing": ["dataRepresentationTemplateNumber", None, "numberOfValues", None, None, None, "binaryScaleFactor",
                None, "decimalScaleFactor", None, "bitsPerValue", None, "typeOfOriginalFieldValues"],
    "map": ["bitMapIndicator"],
}
compared = apart = 0
messages = list(dumped())
assert len(messages) == len(blocks), (len(messages), len(blocks))
for number, (block, other) in enumerate(zip(blocks, messages), 1):
    for line in block.splitlines()[1:]:
        kind, *numbers = line.split(" ")
        wanted_names = names.get(kind, []) + (added.get(numbers[0], []) if kind == "product" else [])
        for name, value in zip(wanted_names, numbers):
            if name is None or name not in other:
                continue
            wanted = other[name]
            compared += 1
            if value != ("-" if wanted == "MISSING" else wanted):
                apart += 1
                print("message", number, kind, name, ":", value, wanted)
    reference = re.search(r"reference (\d+)", block)
    if reference and "referenceValue" in other:
        compared += 1
        value = struct.unpack(">f", struct.pack(">I", int(reference.group(1))))[0]
        if abs(value - float(other["referenceValue"])) > 1e-5 * max(1, abs(value)):
            apart += 1
            print("message", number, "reference", value, other["referenceValue"])
print(compared, "numbers compared,", apart, "apart")
sys.exit(1 if apart else 0)
PY
