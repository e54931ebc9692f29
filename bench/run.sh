#!/bin/sh
# Times the built program on inputs made here, and shows the most memory that it held. Run it after ./mca has built
# the program. The memory is read by GNU's time (Debian's package time); where that is missing it is left out.
top=$(CDPATH='' cd "$(dirname "$0")/.." && pwd -P) || exit 1
program=$top/crates/mca_cli/out/mca_cli
[ -x "$program" ] || { echo "build first: $top/mca -table=$top/examples/b.td $top/examples/add.s" >&2; exit 1; }
work=$(mktemp -d) || exit 1
trap 'rm -rf "$work"' EXIT

awk 'BEGIN { for (i = 0; i < 4096; i++) print "add a0, a0, a0" }' > "$work/rows.s"
awk 'BEGIN { print "add a0, a0, a0" }' > "$work/one.s"
head -c 8388609 /dev/zero | tr '\0' '\n' > "$work/long.s"
awk 'BEGIN { for (i = 0; i < 1048575; i++) print "# byte"; print "nop" }' > "$work/short_lines.s"
awk 'BEGIN { for (j = 0; j < 4090; j++) line = line ";"; for (i = 0; i < 2048; i++) print line; print "nop" }' > "$work/long_lines.s"

# An assembly of 8 MiB whose lines are all alike.
lines_of() {
    yes "$1" | head -c 8388607
    echo
}
lines_of nop > "$work/nops.s"
lines_of 'call f' > "$work/calls.s"
lines_of 'li a0, 0x1234567812345679' > "$work/constants.s"
# One whose symbols are all different: 9 bytes a line.
awk 'BEGIN { for (i = 0; i < 932000; i++) printf "j _%05x\n", i }' > "$work/symbols.s"

# memory_of FILE TABLE: the most memory that a run held, in MiB.
memory_of() {
    [ -x /usr/bin/time ] || { echo -; return; }
    /usr/bin/time -f %M -o "$work/memory" "$program" "-table=$2" -instruction-info=false -resource-pressure=false "$1" >/dev/null 2>&1
    tail -n 1 "$work/memory" | awk '{ printf "%.1f MiB", $1 / 1024 }'
}

# time_of NAME FILE [TABLE]: the least of five runs, with its status and its memory.
time_of() {
    best=
    for run in 1 2 3 4 5; do
        start=$(date +%s%N)
        "$program" "-table=${3:-$top/examples/b.td}" -instruction-info=false -resource-pressure=false "$2" >/dev/null 2>&1
        status=$?
        end=$(date +%s%N)
        took=$(( (end - start) / 10000 ))
        if [ -z "$best" ] || [ "$took" -lt "$best" ]; then best=$took; fi
    done
    memory=$(memory_of "$2" "${3:-$top/examples/b.td}")
    printf '%-44s status %d  %4d.%02d ms  %s\n' "$1" "$status" $((best / 100)) $((best % 100)) "$memory"
}

# 8,192 records, all valid: a model, nine resources, and writes of eight uses each.
awk 'BEGIN {
    print "def M : SchedMachineModel { let IssueWidth = 1; let MicroOpBufferSize = 8; }"
    print "def : WriteRes<WriteIALU, []>;"
    for (i = 0; i < 9; i++) print "def R" i " : ProcResource<" (i % 4 + 1) ">;"
    for (i = 11; i < 8192; i++) print "def W" i " : SchedWriteRes<[R8, R7, R6, R5, R4, R3, R2, R1]> { let ReleaseAtCycles = [1, 2, 3, 4, 5, 6, 7, 8]; }"
}' > "$work/records.td"
# 4,000 writes with eight uses of two groups of 2,000 resources that have none in common. It is refused for its 65th
# resource.
awk 'BEGIN {
    print "def M : SchedMachineModel { let MicroOpBufferSize = 8; }"
    for (i = 0; i < 4000; i++) print "def : SchedWriteRes<[GA, GB, GA, GB, GA, GB, GA, GB]>;"
    for (i = 0; i < 2000; i++) {
        print "def A" i " : ProcResource<1>;"
        print "def B" i " : ProcResource<1>;"
        one = one (i ? ", " : "") "A" i
        other = other (i ? ", " : "") "B" i
    }
    print "def GA : ProcResGroup<[" one "]>;"
    print "def GB : ProcResGroup<[" other "]>;"
}' > "$work/groups.td"
{ cat "$top/examples/b.td"; head -c 8380000 /dev/zero | tr '\0' '\n'; } > "$work/blank.td"

time_of 'start-up, one line' "$work/one.s"
time_of '4,096 lines of add (409,600 rows)' "$work/rows.s"
time_of 'a file of 8,388,609 bytes, refused' "$work/long.s"
time_of 'a million short lines (7 MiB)' "$work/short_lines.s"
time_of 'lines of 4,090 bytes (8 MiB)' "$work/long_lines.s"
time_of 'lines of nop (8 MiB)' "$work/nops.s"
time_of 'lines of call, two instructions each (8 MiB)' "$work/calls.s"
time_of 'lines of li, eight instructions each (8 MiB)' "$work/constants.s"
time_of '932,000 different symbols (8 MiB)' "$work/symbols.s"
time_of 'a table of 8,192 records, most with 8 uses' "$work/one.s" "$work/records.td"
time_of 'a table of 8 MiB of blank lines' "$work/one.s" "$work/blank.td"
time_of '4,000 writes of two large groups, refused' "$work/one.s" "$work/groups.td"
