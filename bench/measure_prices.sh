#!/usr/bin/env bash
# bench/measure_prices.sh [FOLDER [RUNS [WORD..]]] is bench/measure.py prices, of PROGRAM or of the program that `rt run` leaves.
exec "$(dirname "$0")/measure.py" prices "${PROGRAM:-crates/flumina/out/flumina}" --folder "${1:-$(mktemp -d)}" --runs "${2:-5}" -- "${@:3}"
