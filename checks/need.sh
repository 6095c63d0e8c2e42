#!/bin/sh
# Checks that the tools a target of the Makefile needs are there, and names each one that is missing.
#     checks/need.sh TOOL..
# A TOOL is a command, or the word kit, which stands for the Rattle kit. If the kit on the PATH is not the one that
# this tree was proved with, prints both identities and goes on. Ends with status 1 if a tool is missing.

# The kit that this tree was proved with, as `rt version` prints it; the words from "logic" on decide.
KIT='rattle-kit-13f logic dac8208d650f15bf'

# package_of COMMAND: the package of Debian and Ubuntu that has it
package_of() {
    case $1 in
    cc) echo gcc ;;
    ar) echo binutils ;;
    *) echo "$1" ;;
    esac
}

# need_kit: whether the kit is there
need_kit() {
    if ! command -v rt >/dev/null 2>&1; then
        echo "make: the Rattle kit is missing: put its \`rt\` on the PATH." >&2
        echo "      Its \`rt version\` ends in \"logic ${KIT##*logic }\". See \"Build\" in README.md." >&2
        return 1
    fi
    if ! found=$(rt version 2>/dev/null); then
        echo "make: \`rt\` on the PATH is not the Rattle kit: \`rt version\` fails. See \"Build\" in README.md." >&2
        return 1
    fi
    if [ "${found##*logic }" != "${KIT##*logic }" ]; then
        echo "make: another kit than the one that this tree was proved with, so a proof may fail:" >&2
        echo "      wanted  $KIT" >&2
        echo "      found   $found" >&2
        echo "      See \"Build\" in README.md." >&2
    fi
}

case ${1:-} in
--help | -h)
    sed -n '2,/^$/s/^# \{0,1\}//p' "$0"
    exit 0
    ;;
esac
status=0 packages=
for tool; do
    if [ "$tool" = kit ]; then
        need_kit || status=1
    elif ! command -v "$tool" >/dev/null 2>&1; then
        echo "make: $tool is missing." >&2
        packages="$packages $(package_of "$tool")"
        status=1
    fi
done
[ -z "$packages" ] || echo "      On Debian or Ubuntu: sudo apt-get install$packages" >&2
exit $status
