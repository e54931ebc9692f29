#!/bin/sh
# Prints two tables of the example kernels, 100 iterations of each loop. The first has the total cycles on each real core, behind
# each, where llvm-mca 19 is installed (Debian's llvm-19), that tool's, and on each built-in machine; the second the cycles of an
# iteration and the instructions of a cycle. A loop is what stands between a kernel's marks.
here=$(CDPATH='' cd "$(dirname "$0")" && pwd -P) || exit 1
top=$(dirname "$here")
program=$top/crates/mca_cli/out/mca_cli
[ -x "$program" ] || { echo "build first: $top/mca --build" >&2; exit 1; }
work=$(mktemp -d) || exit 1
trap 'rm -rf "$work"' EXIT

views='-instruction-info=false -resource-pressure=false'

# value LABEL: the number that a summary tells.
value() {
    sed -n "s/^$1: *//p" | head -n 1
}

# run MACHINE FILE: the summary of a loop on a core or a built-in machine.
run() {
    case $1 in
        tiny | dual | quad) "$program" "-mcpu=$1" $views "$2" ;;
        *) "$program" "-table=$top/machines/$1.td" $views "$2" ;;
    esac
}

# peer CORE FILE: llvm-mca's summary of the same.
peer() {
    llvm-mca-19 -mtriple=riscv64 -mattr=+m "-mcpu=$1" -iterations=100 $views "$2" 2>/dev/null
}

cores='sifive-p450 sifive-p670 xiangshan-nanhu'
echo '| Loop | Instructions | P450 | P670 | Nanhu | `tiny` | `dual` | `quad` |'
echo '|---|---|---|---|---|---|---|---|'
for kernel in "$here"/kernels/*.s; do
    sed -n '/LLVM-MCA-BEGIN/,/LLVM-MCA-END/p' "$kernel" | grep -v '^[[:space:]]*#' > "$work/loop.s"
    count=$(($(run tiny "$kernel" | value Instructions) / 100))
    row="| \`$(basename "$kernel" .s)\` | $count"
    for core in $cores; do
        theirs=$(peer "$core" "$work/loop.s" | value 'Total Cycles')
        row="$row | $(run "$core" "$kernel" | value 'Total Cycles') (${theirs:--})"
    done
    for machine in tiny dual quad; do row="$row | $(run "$machine" "$kernel" | value 'Total Cycles')"; done
    echo "$row |"
done
echo
echo '| Loop | P450 | P670 | Nanhu |'
echo '|---|---|---|---|'
for kernel in "$here"/kernels/*.s; do
    row="| \`$(basename "$kernel" .s)\`"
    for core in $cores; do
        report=$(run "$core" "$kernel")
        cycles=$(echo "$report" | value 'Total Cycles')
        row="$row | $((cycles / 100)).$(printf %02d $((cycles % 100))), $(echo "$report" | value IPC)"
    done
    echo "$row |"
done
