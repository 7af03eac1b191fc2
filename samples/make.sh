#!/usr/bin/env bash
# Makes forecast.grib2 and ensemble.grib2 with ecCodes (Debian: libeccodes-tools): eighteen fields of a regular
# latitude-longitude grid (templates 3.0, 4.0, 5.0) in three steps, three levels and two parameters, and two fields of ten
# members of an ensemble on the same grid, temperature at a point in time (4.1) and precipitation over six hours (4.11).
set -eu
cd "$(dirname "$0")"
base=$(codes_info -s)/regular_ll_pl_grib2.tmpl
work=$(mktemp -d)
trap 'rm -rf "$work"' EXIT
for step in 0 6 12; do
  for level in 850 500 250; do
    for parameter in 0:0 2:2; do
      category=${parameter%:*} number=${parameter#*:}
      cat > "$work/rules" <<RULES
set dataDate = 20240101;
set dataTime = 0;
set step = $step;
set level = $level;
set parameterCategory = $category;
set parameterNumber = $number;
set Ni = 16;
set Nj = 31;
set bitsPerValue = 12;
set values = {$(awk -v s=$step -v l=$level -v c=$category 'BEGIN{for(i=0;i<496;i++)printf "%s%.2f",(i?",":""),(c?10:270)+s/3+l/100+7*sin(i/(9+c))}')};
write;
RULES
      grib_filter -o "$work/$step-$level-$category" "$work/rules" "$base"
    done
  done
done
cat "$work"/{0,6,12}-{850,500,250}-{0,2} > forecast.grib2

# field NAME MEMBER TEMPLATE MEAN RULES.. : a field of a member, with these rules for its own keys
field() {
  local name=$1 member=$2 template=$3 mean=$4
  shift 4
  cat > "$work/rules" <<RULES
set dataDate = 20240101;
set dataTime = 0;
set productDefinitionTemplateNumber = $template;
set typeOfProcessedData = 4;
set typeOfEnsembleForecast = 3;
set perturbationNumber = $member;
set numberOfForecastsInEnsemble = 10;
$*
set Ni = 16;
set Nj = 31;
set bitsPerValue = 8;
set values = {$(awk -v m=$member -v a=$mean 'BEGIN{for(i=0;i<496;i++)printf "%s%.2f",(i?",":""),a+m/2+3*sin(i/(9+m))}')};
write;
RULES
  grib_filter -o "$work/$name-$member" "$work/rules" "$base"
}
for member in $(seq 0 9); do
  field instant $member 1 270 'set step = 6; set level = 500; set parameterCategory = 0; set parameterNumber = 0;'
  field over $member 11 4 'set stepRange = "0-6"; set typeOfStatisticalProcessing = 1; set parameterCategory = 1;' \
    'set parameterNumber = 8; set typeOfFirstFixedSurface = 1; set scaleFactorOfFirstFixedSurface = missing();' \
    'set scaledValueOfFirstFixedSurface = missing();'
done
cat "$work"/instant-? "$work"/over-? > ensemble.grib2
grib_ls forecast.grib2
grib_ls -p date,stepRange,number,typeOfLevel,level,shortName,stepType ensemble.grib2
