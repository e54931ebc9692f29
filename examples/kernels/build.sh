#!/bin/sh
# Makes NAME.gcc.s and NAME.clang.s again from each NAME.c in this folder.
#
# The committed files were made by these packages of Debian 12:
#   gcc-riscv64-unknown-elf 12.2.0-14+deb12u1+11+b2 (GCC 12.2.0)
#   clang-14 1:14.0.6-12 (clang 14.0.6)
# Other versions may make other instructions.

set -eu
cd "$(dirname "$0")"

fail() {
    echo "build.sh: $1" >&2
    exit 1
}

gcc=
for name in riscv64-unknown-elf-gcc riscv64-linux-gnu-gcc; do
    if [ -z "$gcc" ] && command -v "$name" >/dev/null 2>&1; then
        gcc=$name
    fi
done
[ -n "$gcc" ] || fail 'no GCC for RISC-V: install the Debian package gcc-riscv64-unknown-elf or gcc-riscv64-linux-gnu'
command -v clang >/dev/null 2>&1 || fail 'no clang: install the Debian package clang'

# Exactly one comment of the kind $2 in the file $1.
one_mark() {
    [ "$(grep -c "LLVM-MCA-$2" "$1")" -eq 1 ] || fail "$1 does not hold exactly one LLVM-MCA-$2"
}

flags='-O2 -march=rv64im -mabi=lp64 -ffreestanding -fno-builtin -S'
for source in *.c; do
    name=${source%.c}
    # The flags are several words.
    # shellcheck disable=SC2086
    "$gcc" $flags -o "$name.gcc.s" "$source" || fail "$gcc does not take $source"
    # shellcheck disable=SC2086
    clang --target=riscv64 $flags -o "$name.clang.s" "$source" || fail "clang does not take $source"
    for made in "$name.gcc.s" "$name.clang.s"; do
        one_mark "$made" BEGIN
        one_mark "$made" END
    done
done
