# What parts_parallel.sh and parts_slurm.sh share: `make_inputs ROWS` writes a job of four sources and a clock, its plan with a leaf for each source, and
# the sources with so many rows each, to the current folder. Each source counts by its own keys and all add to the same cells.
make_inputs() {
    rows=$1
    cat >parts.job <<'JOB'
cell views keyed sum
cell top max
cell seen keyed sum
tag view keyed int
tag tick none
depends view tick
depends tick tick
on view: add views[key] value; raise top value; add seen[0] 1
on tick: flush views "page {key} views {cell}"; emit "top {top}"; clear top; flush seen "{cell} rows"
source north "north.csv" rate 1000: view[0..9]
source south "south.csv" rate 1000: view[0..9]
source east "east.csv" rate 1000: view[0..9]
source west "west.csv" rate 1000: view[0..9]
source clock "clock.csv" rate 1: tick
JOB
    cat >parts.plan <<'PLAN'
node root: tick -> left right
node left: -> north south
node right: -> east west
node north: view@north
node south: view@south
node east: view@east
node west: view@west
PLAN
    for source in north south east west; do
        awk -v rows="$rows" -v seed="$(printf %s "$source" | cksum | cut -d' ' -f1)" 'BEGIN {
            x = seed % 2147483648
            for (t = 1; t <= rows; t++) { x = (x * 69069 + 1) % 2147483648; print t ",view[" int(x / 65536) % 10 "]," int(x / 1024) % 1000 }
            print "end"
        }' >"$source.csv"
    done
    awk -v rows="$rows" 'BEGIN { for (t = 1000; t <= rows; t += 1000) print t ",tick"; print rows + 1 ",tick"; print "end" }' >clock.csv
}
