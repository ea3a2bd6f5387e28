#!/bin/sh
# Files that stand twice are equal: the program's stored run reads the example's files, and the example is what its script writes.
# What needs a tool that is missing is skipped.
cd -- "$(dirname -- "$0")/.." || exit 1
status=0

has() {
    command -v "$1" >/dev/null 2>&1 && return
    echo "check_copies: skipped, there is no $1: $2" >&2
    return 1
}

same() {
    if ! cmp -- "$1" "$2"; then
        echo "check_copies: $2 is no copy of $1" >&2
        status=1
    fi
}

has cmp "no copies are compared" || exit 0
for file in hello.elf hello.order; do
    same "examples/$file" "crates/tlbvm_main/data/$file"
done
has python3 "the examples are not made again" || exit "$status"
for name in hello harts; do
    if ! PYTHONDONTWRITEBYTECODE=1 python3 "examples/make_$name.py" | cmp -- - "examples/$name.elf"; then
        echo "check_copies: examples/$name.elf is not what examples/make_$name.py writes" >&2
        status=1
    fi
done
exit $status
