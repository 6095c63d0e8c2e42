#!/usr/bin/env bash
# Runs one test of a crate again and again, each time with another of its allocations refused: the first, the second, and so on, until a
# run makes fewer. The test is the proved one that `rt test` built.
# checks/failing.sh CRATE TEST [FIRST [STEP]]
# A run is right if the test passes, or, with the word --may-end before CRATE, if it ends with the error that memory was refused.
set -u
here=$(cd "$(dirname "$0")" && pwd)
may_end=0
if [ "${1:-}" = --may-end ]; then
    may_end=1
    shift
fi
if [ $# -lt 2 ]; then
    echo "usage: checks/failing.sh [--may-end] CRATE TEST [FIRST [STEP]]" >&2
    exit 2
fi
program=$here/../crates/$1/out/$1_tests
test=$2
number=${3:-1}
step=${4:-1}
work=$(mktemp -d)
trap 'rm -rf "$work"' EXIT

"${CC:-cc}" -shared -fPIC -O1 -o "$work/refuse.so" "$here/refuse.c" || exit 2

runs=0
passed=0
ended=0
while :; do
    REFUSED=$number LD_PRELOAD=$work/refuse.so "$program" "$test" >"$work/said" 2>&1
    status=$?
    if ! grep -q "one allocation was refused" "$work/said"; then
        [ $status = 0 ] && break
        echo "the test fails without a refused allocation:"
        cat "$work/said"
        exit 1
    fi
    runs=$((runs + 1))
    if [ $status = 0 ]; then
        passed=$((passed + 1))
    elif [ $may_end = 1 ] && grep -q -E "^error: Alloc(Error|Failed)" "$work/said"; then
        ended=$((ended + 1))
    else
        echo "WRONG   allocation $number:"
        cat "$work/said"
        exit 1
    fi
    number=$((number + step))
done
echo "ok      $1 $test: $runs allocations refused, one a run; $passed runs passed, $ended ended with the error of a refused allocation; allocation $number is never made"
