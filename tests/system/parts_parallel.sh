#!/bin/sh
# Runs the leaves of a plan as processes of their own by GNU parallel (Debian's package parallel), combines their partials, and compares the report with fold's.
# Usage: tests/system/parts_parallel.sh PROGRAM [ROWS], with ROWS rows in each of four sources, 100000 if not given. The status is 0 if the reports are the same.
set -eu
program=$(realpath "$1")
here=$(realpath "$(dirname "$0")")
. "$here/parts_inputs.sh"
folder=$(mktemp -d)
trap 'rm -rf "$folder"' EXIT
cd "$folder"
make_inputs "${2:-100000}"
parallel "$program" partial parts.job parts.plan {} '>' {}.partial ::: north south east west
"$program" combine parts.job parts.plan north.partial south.partial east.partial west.partial >combined.csv
"$program" fold parts.job >folded.csv
cmp combined.csv folded.csv
echo "same report of $(wc -l <folded.csv) lines; bytes of the partials: $(cat ./*.partial | wc -c)"
