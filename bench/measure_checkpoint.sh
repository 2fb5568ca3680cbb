#!/usr/bin/env bash
# bench/measure_checkpoint.sh [FOLDER [RUNS [WORD..]]] is bench/measure.py checkpoints, of PROGRAM or of the program that `rt run` leaves.
exec "$(dirname "$0")/measure.py" checkpoints "${PROGRAM:-crates/flumina/out/flumina}" --folder "${1:-$(mktemp -d)}" --runs "${2:-3}" -- "${@:3}"
