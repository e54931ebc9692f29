#!/bin/sh
# What the gate costs. Runs `rt ci` with the words given here (none: what has changed since an earlier run; --anew:
# everything) and prints, for each crate, the processor minutes of its proof, of its proof with its tests, and of its
# must-fail edits, and then the lines and the cost by 1,000 of them. A check's time is read once a second, so each may be
# a second short; the runs of tests and programs, seconds in all, are left out.
top=$(CDPATH='' cd "$(dirname "$0")/.." && pwd -P) || exit 1
cd "$top" || exit 1
work=$(mktemp -d) || exit 1
trap 'rm -rf "$work"' EXIT
: > "$work/samples"

# The checks below a process: their numbers, crates, kinds and processor seconds so far. The check of an edit runs in a
# folder of its own, whose name the kit begins with rt-edit.
sample() {
    ps -eo pid=,ppid=,cputimes=,args= | awk -v job="$1" '
        { parent[$1] = $2; seconds[$1] = $3; line[$1] = $0 }
        END {
            for (pid in line) {
                if (line[pid] !~ /rattle (check|build) .*--crate-name /) continue
                for (above = pid; above > 1 && above != job; above = parent[above]) ;
                if (above != job) continue
                name = line[pid]; sub(/.*--crate-name /, "", name); sub(/ .*/, "", name)
                print pid, name, (line[pid] ~ / --test( |$)/ ? "tests" : "proof"), seconds[pid]
            }
        }' | while read -r pid name kind seconds; do
        case $(readlink "/proc/$pid/cwd") in */rt-edit*) kind=edits ;; esac
        echo "$pid $name $kind $seconds"
    done >> "$work/samples"
}

start=$(date +%s)
rt ci "$@" > "$work/log" 2>&1 &
job=$!
while kill -0 "$job" 2>/dev/null; do
    sample "$job"
    sleep 1
done
wait "$job"
status=$?

# lines CRATE: its lines of all kinds.
lines() {
    find "crates/$1" -path '*/out' -prune -o -type f \( -name '*.rt' -o -name '*.antt' \) -exec cat {} + | wc -l
}

awk '
    { if ($4 > most[$1 " " $2 " " $3]) most[$1 " " $2 " " $3] = $4 }
    END {
        for (key in most) { split(key, part, " "); sum[part[2] " " part[3]] += most[key]; seen[part[2]] = 1 }
        for (name in seen) print name, sum[name " proof"] + 0, sum[name " tests"] + 0, sum[name " edits"] + 0
    }' "$work/samples" | sort | while read -r name proof tests edits; do
    echo "$name $proof $tests $edits $(lines "$name")"
done | awk '
    BEGIN { printf "| %-16s | %6s | %6s | %6s | %6s | %s |\n", "Crate", "Proof", "Tests", "Edits", "Lines", "Proof by 1,000 lines"
            print "|---|---|---|---|---|---|" }
    { printf "| %-16s | %6.1f | %6.1f | %6.1f | %6d | %.1f |\n", $1, $2 / 60, $3 / 60, $4 / 60, $5, ($5 ? $2 / 60 * 1000 / $5 : 0)
      proof += $2; tests += $3; edits += $4; all += $5 }
    END { printf "| %-16s | %6.1f | %6.1f | %6.1f | %6d | %.1f |\n", "all", proof / 60, tests / 60, edits / 60, all, (all ? proof / 60 * 1000 / all : 0)
          printf "Together %.0f processor minutes.\n", (proof + tests + edits) / 60 }'
echo "By the clock $(( ($(date +%s) - start) / 60 )) minutes. The gate: $(tail -n 1 "$work/log")"
exit "$status"
