#!/bin/sh
# The gate runs programs on copies of the examples and of the tables of real cores, since such a run sees only the
# folder data/ of its own crate. Says which copies differ; with the word 'make' it makes them again.
cd "$(dirname "$0")/.." || exit 1
make=${1-}
bad=0

# compare FILE CRATE [COPY]: the crate has a copy of the file, by its name below examples/, its whole name, or that of the copy.
compare() {
    copy=crates/$2/data/${3-${1#examples/}}
    [ "$make" = make ] && cp "$1" "$copy"
    cmp -s "$1" "$copy" || { echo "$1: $copy differs"; bad=1; }
}

compare examples/two-wide.td mca_cases tables/two-wide.td
for file in examples/each.s examples/kernels/*.s machines/*.td; do
    compare "$file" mca_cases
done
for file in examples/add.s examples/two-wide.td; do
    compare "$file" mca_cli
done
exit $bad
