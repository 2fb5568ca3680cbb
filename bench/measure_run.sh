#!/usr/bin/env bash
# bench/measure_run.sh [FOLDER [RUNS [WORD..]]] is bench/measure.py run, of PROGRAM or of the program that `rt run` leaves.
exec "$(dirname "$0")/measure.py" run "${PROGRAM:-crates/flumina/out/flumina}" --folder "${1:-$(mktemp -d)}" --runs "${2:-5}" -- "${@:3}"
