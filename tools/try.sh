#!/usr/bin/env bash
# Runs a command of flumina without building it first: tools/try.sh COMMAND WORD.., as in tools/try.sh fold examples/views/views.job
# The kit's `rt try` compiles the program with checks at run time and proves nothing; that takes one to four minutes on a machine with several
# processors, for each call. Report, refusals and exit status are the program's; 125 means that it did not run, and rt's own lines then say why.
# It needs `rt` on the path, bash and awk. `rt try` runs the program in a folder of its own: it gets the files that the words and the sources of
# the job name, looked up from here, and leaves none behind. So --save is refused, and so are names that lead out of this folder by `..` or
# contain a `=`; `valid`, `run` and `replay` get a plan or a trace, but a checkpoint only to read. A run has 60 seconds and at most 1 MiB of output.
set -u
stop() { echo "tools/try.sh: $1" >&2; exit 125; }
[ $# -gt 0 ] || stop "give it a command and its words, as in: tools/try.sh fold examples/views/views.job"
command -v rt > /dev/null || stop "rt of the Rattle kit is not on the path (README.md, Start)"
crate=$(cd "$(dirname "$0")/../crates/flumina" && pwd) || stop "there is no crates/flumina beside tools"

# The texts between quotes of a job, one on a line, comments left out. Those that are no file's name are passed over below.
texts() {
    awk '{
        for (line = $0; match(line, /["#]/); line = substr(line, end + 1)) {
            if (substr(line, RSTART, 1) == "#") break
            line = substr(line, RSTART + 1)
            if (!(end = index(line, "\""))) break
            print substr(line, 1, end - 1)
        }
    }' "$1"
}

files=() input=/dev/null
hand_over() {
    case $1 in
        /dev/stdin | /dev/fd/0) input=/dev/stdin; return ;;
        /*) return ;;   # Found where it is, from any folder.
    esac
    [ -f "$1" ] || return
    case /$1/ in */../* | *=*) stop "$1: names with .. or = cannot be handed to rt try; run from another folder, or use the whole path" ;; esac
    files+=(--data "$1=$PWD/$1")
}
for word; do
    case $word in --save) stop "--save leaves a file, which rt try throws away: build the program for that (README.md, Start)" ;; esac
    hand_over "$word"
done
if [ $# -gt 1 ] && [ -f "$2" ]; then while IFS= read -r name; do hand_over "$name"; done < <(texts "$2"); fi

echo "tools/try.sh: compiling with checks at run time; nothing is proved in this run" >&2
said=$(mktemp) out=$(mktemp)
trap 'rm -f "$said" "$out"' EXIT
(cd "$crate" && rt try "${files[@]}" -- "$@") < "$input" > "$out" 2> "$said"
status=$(sed -n '$s/^run=ended status=\([0-9]*\) .*/\1/p' "$said")
if [ -z "$status" ]; then cat "$said" >&2; exit 125; fi
cat "$out"
grep -Ev '^(interpreter|checked|races|run|rt): ?|^run=' "$said" >&2
exit "$status"
