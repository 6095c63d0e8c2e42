#!/usr/bin/env bash
# Runs the tests on running out of memory once for each of their allocations, with that one refused (failing.sh), and the events of a heap that
# take none with all refused (starved.sh). They are the proved tests that `rt test` builds; a crate whose tests were not built is built
# first, which takes minutes.
# checks/refused_tests.sh
set -u
here=$(cd "$(dirname "$0")" && pwd)

# tests CRATE [OPTION] TEST..: these tests of a crate
tests() {
    local crate=$1
    shift
    if [ ! -x "$here/../crates/$crate/out/${crate}_tests" ]; then
        (cd "$here/../crates/$crate" && rt test >/dev/null) || return 1
    fi
    for test in "$@"; do
        "$here/failing.sh" "$crate" "$test" || return 1
    done
}

tests jlr_low_rows tests::plain::memory::a_want_of_memory_leaves_the_machine || exit 1
tests jlr_core_rows tests::events::memory::a_refused_growth_changes_nothing || exit 1
"$here/starved.sh" jlr_core_rows tests::events::memory::a_heap_and_its_table_are_made tests::events::memory::each_other_event_takes_no_memory || exit 1
