#!/usr/bin/env bash
# The heap in your own process, from outside: builds librefheap.a from the crate refheap_c, and the callers in C and in Python over it.
#     checks/embed.sh [PROGRAM [CALLS]]
# The header compiles as C and as C++, with no warning. The callers in C run plain, under the sanitizers of addresses and of undefined behaviour, and under valgrind,
# where they are there. The worked sessions are played by calls, and, with a PROGRAM, random ones by calls and by `refheap run`. Then CALLS random
# calls, a million where nothing is said, are compared with an oracle in Python. What calls take by malloc is counted (embed_memory.c). REFHEAP_ARCHIVE names an archive that is built already; else `rt lib`
# proves and builds it. KIT is the folder of the kit.
set -eu
here=$(cd "$(dirname "$0")" && pwd)
program=${1:-}
calls=${2:-1000000}
kit=${KIT:-/opt/rattle}
room=$(mktemp -d)
trap 'rm -rf "$room"' EXIT
if [ -n "$program" ]; then
    program=$(readlink -f "$program")
fi

built=${REFHEAP_ARCHIVE:-$here/../crates/refheap_c/out/librefheap_c.a}
if [ -z "${REFHEAP_ARCHIVE:-}" ]; then
    (cd "$here/../crates/refheap_c" && rt lib > "$room/rt.log" 2>&1) || { tail -5 "$room/rt.log"; exit 1; }
fi
archive=${OUT:-$room}/librefheap.a
shared=${OUT:-$room}/librefheap.so
KIT=$kit "$here/library.sh" "$built" "$(dirname "$archive")"

folder=$here/../examples/embed_c
strict="-Wall -Wextra -pedantic -Werror"
echo '#include "refheap.h"' > "$room/header.c"
cc -std=c99 $strict -I "$folder" -fsyntax-only "$room/header.c"
if command -v c++ > /dev/null; then
    c++ -std=c++11 $strict -I "$folder" -fsyntax-only -x c++ "$room/header.c"
fi

# The page of example stands in the header.
sed -n '/#include <stdio.h>/,/^ \*     }$/p' "$folder/refheap.h" | sed 's/^ \*     \{0,1\}//; s/^ \*$//' > "$room/page.c"
printf 'still there: 2\nreclaimed\n' > "$room/page.wanted"
printf 'the text of 39; 40 loads, 0 freed\nafter a collection: 0 freed\nafter one that clears: 40 freed\nthe text of 7; 41 loads\n' > "$room/cache.wanted"
cat > "$room/lists.wanted" <<'END'
<fn>
<fn>
<fn>
<fn>
(100 81 64 49 36 25 16 9 4 1)
338350
13
((3) () (8 9))
END

# tried NAME COMMAND..: the caller's output is as wanted, for lists with and without a collection at each allocation
tried() {
    name=$1
    shift
    case $name in
    lists)
        "$@" < "$folder/squares.lisp" > "$room/told"
        cmp "$room/told" "$room/lists.wanted"
        "$@" collect < "$folder/squares.lisp" > "$room/told"
        cmp "$room/told" "$room/lists.wanted"
        ;;
    *)
        "$@" > "$room/told"
        cmp "$room/told" "$room/$name.wanted"
        ;;
    esac
}

for name in page cache lists; do
    source=$folder/$name.c
    [ "$name" = page ] && source=$room/page.c
    cc -std=c99 $strict -O2 -I "$folder" "$source" "$archive" -o "$room/$name"
    tried "$name" "$room/$name"
    if cc -std=c99 -g -fsanitize=address,undefined -fno-sanitize-recover=all -I "$folder" "$source" "$archive" -o "$room/$name.asan" 2> /dev/null; then
        tried "$name" "$room/$name.asan"
        echo "ok      $name: well under the sanitizers"
    fi
    if command -v valgrind > /dev/null; then
        tried "$name" valgrind -q --error-exitcode=9 --leak-check=full --errors-for-leak-kinds=all "$room/$name"
        echo "ok      $name: well under valgrind"
    fi
done

wrapped=-Wl,--wrap=malloc,--wrap=calloc,--wrap=realloc,--wrap=aligned_alloc
cc -std=c99 $strict -O2 -I "$folder" "$here/embed_memory.c" "$archive" $wrapped -o "$room/memory"
"$room/memory"

export PYTHONDONTWRITEBYTECODE=1
printf "held: [] 0\ndropped: ['died'] 0 True\nread: b'' open: 1\nforgotten: open: 0\nrefused: deref: no handle\n" > "$room/embed.wanted"
python3 "$here/../examples/embed.py" "$shared" > "$room/told"
cmp "$room/told" "$room/embed.wanted"
echo "ok      embed.py: well"
python3 "$here/embed_rows.py" "$shared" ${program:+"$program"}
python3 "$here/embed_fuzz.py" "$shared" "$calls"
