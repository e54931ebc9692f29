#!/bin/sh
# Times the built program beside llvm-mca 19 (Debian's package llvm-19) in one run: the same bodies on the same cores, totals
# alone, and then what the views add; the least of three runs each. Where that tool is missing it says so and times nothing. Run
# it after ./mca has built the program. A word that is given keeps the cases whose name holds it.
top=$(CDPATH='' cd "$(dirname "$0")/.." && pwd -P) || exit 1
program=$top/crates/mca_cli/out/mca_cli
peer=$(command -v llvm-mca-19) || { echo 'llvm-mca-19 is not installed (apt-get install llvm-19): nothing is timed'; exit 0; }
[ -x "$program" ] || { echo "build first: $top/mca -table=$top/examples/b.td $top/examples/add.s" >&2; exit 1; }
work=$(mktemp -d) || exit 1
trap 'rm -rf "$work"' EXIT

# Bodies of 4,096 instructions: a chain of additions, independent ones, and a mixture by the generator of -load, which is
# the program of -load=0 with the 3,584 instructions that its rule gives next. That program itself has 512.
awk 'BEGIN { for (i = 0; i < 4096; i++) print "add a0, a0, a1" }' > "$work/chain.s"
awk 'BEGIN { for (i = 0; i < 4096; i++) print "add a" i % 8 ", s2, s3" }' > "$work/independent.s"
"$top/bench/load.py" 0 4096 > "$work/mixed.s" || exit 1
"$top/bench/load.py" 0 > "$work/load.s" || exit 1
awk 'BEGIN { for (i = 0; i < 64; i++) print "div a0, a0, a1" }' > "$work/divisions.s"
echo 'add a0, a1, a2' > "$work/one.s"

# least COMMAND..: the least of three runs, in microseconds.
least() {
    best=
    for run in 1 2 3; do
        start=$(date +%s%N)
        "$@" >"$work/out" 2>"$work/err" || [ $? = 5 ] || { echo "fails: $*: $(head -n 1 "$work/err")" >&2; return 1; }
        took=$(( ($(date +%s%N) - start) / 1000 ))
        if [ -z "$best" ] || [ "$took" -lt "$best" ]; then best=$took; fi
    done
    echo "$best"
}

# cycles FILE: the total that a report tells.
cycles() {
    sed -n 's/^Total Cycles: *//p' "$1" | head -n 1
}

plain='-instruction-info=false -resource-pressure=false'

# compare NAME BODY ITERATIONS CORE
compare() {
    case "$1 $4" in *"$wanted"*) ;; *) return ;; esac
    ours=$(least "$program" "-table=$top/machines/$4.td" "-iterations=$3" $plain "$work/$2.s") || return
    our_cycles=$(cycles "$work/out")
    theirs=$(least "$peer" -mtriple=riscv64 -mattr=+m "-mcpu=$4" "-iterations=$3" $plain "$work/$2.s") || return
    awk -v name="$1" -v core="$4" -v ours="$ours" -v theirs="$theirs" -v c="$our_cycles" -v d="$(cycles "$work/out")" 'BEGIN {
        printf "| %s | %s | %.1f ms | %.1f ms | %.3f | %s | %s |\n", name, core, ours / 1000, theirs / 1000, ours / theirs, c, d }'
}

# The body that is timed is the program's own: both have the same summary.
"$program" -load=0 | tail -n +2 > "$work/made"
"$program" -mcpu=quad $plain "$work/load.s" | tail -n +2 | cmp - "$work/made" || exit 1

wanted=${1-}
echo '| Case | Core | mca | llvm-mca | Ratio | Cycles | Cycles of llvm-mca |'
echo '|---|---|---|---|---|---|---|'
for core in sifive-p450 sifive-p670 xiangshan-nanhu; do
    compare 'one addition' one 1 "$core"
    compare '4,096 additions in a chain x 256' chain 256 "$core"
    compare '4,096 independent additions x 256' independent 256 "$core"
    compare '4,096 mixed x 256' mixed 256 "$core"
    compare 'the program of -load=0 x 2,048' load 2048 "$core"
    compare '64 divisions in a chain x 10,000' divisions 10000 "$core"
done

# views NAME BODY ITERATIONS CORE: the time of a report with all views of a run, of that without views, and llvm-mca's with its views.
views() {
    case "$1 $4" in *"$wanted"*) ;; *) return ;; esac
    bare=$(least "$program" "-table=$top/machines/$4.td" "-iterations=$3" $plain "$work/$2.s") || return
    ours=$(least "$program" "-table=$top/machines/$4.td" "-iterations=$3" -timeline "$work/$2.s") || return
    why=$(least "$program" "-table=$top/machines/$4.td" "-iterations=$3" $plain -bottleneck-analysis "$work/$2.s") || return
    theirs=$(least "$peer" -mtriple=riscv64 -mattr=+m "-mcpu=$4" "-iterations=$3" -timeline "$work/$2.s") || return
    awk -v name="$1" -v core="$4" -v bare="$bare" -v ours="$ours" -v why="$why" -v theirs="$theirs" -v rows="$((4096 * $3))" 'BEGIN {
        printf "| %s | %s | %.1f ms | %.1f ms | %.0f ns | %.0f ns | %.1f ms |\n", name, core, bare / 1000, ours / 1000,
            (ours - bare) * 1000 / rows, (why - bare) * 1000 / rows, theirs / 1000 }'
}

echo
echo '| Case | Core | Totals alone | Five views | Views a row | Bottleneck a row | llvm-mca with views |'
echo '|---|---|---|---|---|---|---|'
for core in sifive-p450 sifive-p670 xiangshan-nanhu; do
    views '4,096 independent additions x 16' independent 16 "$core"
    views '4,096 independent additions x 64' independent 64 "$core"
    views '4,096 independent additions x 256' independent 256 "$core"
    views '4,096 mixed x 256' mixed 256 "$core"
done

# What only mca is asked: its time, and the most memory that it held (by GNU's time, Debian's package time).
alone() {
    case "$1" in *"$wanted"*) ;; *) return ;; esac
    name=$1
    shift
    took=$(least "$program" "$@")
    memory=-
    if [ -x /usr/bin/time ]; then
        /usr/bin/time -f %M -o "$work/memory" "$program" "$@" >/dev/null 2>&1
        memory=$(awk 'END { printf "%.1f MiB", $1 / 1024 }' "$work/memory")
    fi
    awk -v name="$name" -v took="${took:-0}" -v memory="$memory" 'BEGIN { printf "| %s | %.1f ms | %s |\n", name, took / 1000, memory }'
}

awk 'BEGIN {
    print "def M : SchedMachineModel { let IssueWidth = 4; let MicroOpBufferSize = 4096; }"
    print "def P : ProcResource<1>;"
    print "def : WriteRes<WriteIALU, [P]>;"
}' > "$work/deep.td"
awk 'BEGIN {
    print "def M : SchedMachineModel { let IssueWidth = 4; let MicroOpBufferSize = 64; }"
    print "def P : ProcResource<256>;"
    print "def : WriteRes<WriteIALU, [P]>;"
}' > "$work/units.td"
sed -e 's/let MicroOpBufferSize = 32/let MicroOpBufferSize = 1/' -e 's/let Latency = 20; let ReleaseAtCycles = \[20\];/let Latency = 1000000;/' \
    "$top/examples/two-wide.td" > "$work/cold.td"
echo 'div a0, a1, a2' > "$work/division.s"
awk 'BEGIN { for (i = 0; i < 4096; i++) print "add a" i % 8 ", s2, s3" }' > "$work/rows.s"

echo
echo '| Case | Time | Memory |'
echo '|---|---|---|'
alone 'a reorder buffer of 4,096, one adder, 4,096 independent additions x 256' "-table=$work/deep.td" -iterations=256 $plain "$work/rows.s"
alone 'a million divisions of a million cycles, one at a time' "-table=$work/cold.td" -iterations=1048576 $plain "$work/division.s"
alone 'the pressure of 4,096 instructions on 256 units' "-table=$work/units.td" -iterations=1 -instruction-info=false "$work/rows.s"
alone 'a timeline of 10 x 4,096 rows over all cycles, too long' "-table=$top/machines/sifive-p450.td" -iterations=10 -timeline -timeline-max-cycles=0 "$work/chain.s"
alone 'the bottleneck analysis of 4,096 mixed x 256' "-table=$top/machines/sifive-p670.td" -iterations=256 $plain -bottleneck-analysis "$work/mixed.s"
