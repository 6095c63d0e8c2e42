#!/usr/bin/env bash
# Makes librefheap.a and librefheap.so from the archive of the crate refheap_c and the C library of the kit.
#     checks/library.sh ARCHIVE FOLDER [SONAME]
# ARCHIVE is crates/refheap_c/out/librefheap_c.a, which `rt lib` builds there. The two files come to FOLDER, and the
# shared one has the name SONAME, if one is given. KIT names the folder of the kit; by default, `rt doc` tells it.
set -eu
case ${1:-} in
--help | -h)
    sed -n '2,/^set/s/^# \{0,1\}//p' "$0"
    exit 0
    ;;
esac
archive=$1 folder=$2 soname=${3:-}
kit=${KIT:-$(dirname "$(rt doc)")}
printf 'create %s\naddlib %s\naddlib %s\nsave\nend\n' "$folder/librefheap.a" "$archive" "$kit/c/liblibc_c.a" | ar -M
cc -shared -o "$folder/librefheap.so" ${soname:+-Wl,-soname,"$soname"} \
    -Wl,--whole-archive "$folder/librefheap.a" -Wl,--no-whole-archive -Wl,-z,defs
[ -z "$soname" ] || ln -sf librefheap.so "$folder/$soname"
