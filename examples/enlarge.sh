#!/usr/bin/env bash
# Makes an example large: its sources' rows again and again, each time later by the last time of all its sources.
# Run at the top of the checkout: examples/enlarge.sh NAME TIMES FOLDER writes the sources, the job that names them and
# the plan to FOLDER. Times have to be numbers, as they are in all examples but rides.
set -eu
name=$1 times=$2 folder=$3
here=examples/$name job=${name%-1}
mkdir -p "$folder"
sources=()
for file in "$here"/*.csv; do
    if [ "$file" != "$here/report.csv" ]; then sources+=("$file"); fi
done
if grep -Ehv '^([0-9]+,|end$)' "${sources[@]}" >&2; then
    echo "examples/enlarge.sh: these rows have no time that is a number" >&2
    exit 1
fi
period=$(awk -F, '$1 != "end" && $1 > last { last = $1 } END { print last }' "${sources[@]}")
for file in "${sources[@]}"; do
    awk -F, -v times="$times" -v period="$period" '
        BEGIN { rows = 0 }
        $1 != "end" { time[rows] = $1; rest[rows++] = substr($0, length($1) + 1) }
        END {
            for (round = 0; round < times; round++)
                for (row = 0; row < rows; row++) printf "%.0f%s\n", time[row] + round * period, rest[row]
            print "end"
        }' "$file" > "$folder/$(basename "$file")"
done
sed "s|\"$here/|\"$folder/|" "$here/$job.job" > "$folder/$job.job"
cp "$here/$job.plan" "$folder/$job.plan"
