#!/usr/bin/env bash
# Counts the allocations of one test of a crate, and runs another one with all refused that it makes beyond so many. It has to pass: what
# it does beside takes no memory. The tests are the proved ones that `rt test` built.
# checks/starved.sh CRATE TEST OTHER
set -u
here=$(cd "$(dirname "$0")" && pwd)
if [ $# -ne 3 ]; then
    echo "usage: checks/starved.sh CRATE TEST OTHER" >&2
    exit 2
fi
program=$here/../crates/$1/out/$1_tests
work=$(mktemp -d)
trap 'rm -rf "$work"' EXIT

"${CC:-cc}" -shared -fPIC -O1 -o "$work/refuse.so" "$here/refuse.c" || exit 2

# passes TEST FIRST: runs a test with all its allocations refused from this one on
passes() {
    REFUSED_FROM=$2 LD_PRELOAD=$work/refuse.so "$program" "$1" >"$work/said" 2>&1
}

# is_refused: whether the test that ran last was refused an allocation
is_refused() {
    grep -q "one allocation was refused" "$work/said"
}

number=1
until passes "$2" "$number" && ! is_refused; do
    if ! is_refused; then
        echo "the test fails without a refused allocation:"
        cat "$work/said"
        exit 1
    fi
    number=$((number + 1))
done
if [ "$number" = 1 ] || ! passes "$3" "$number" || is_refused; then
    echo "WRONG   $1 $3, with all refused from allocation $number on:"
    cat "$work/said"
    exit 1
fi
echo "ok      $1 $3: makes no more allocations than $2, which makes $((number - 1))"
