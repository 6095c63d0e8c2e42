#!/usr/bin/env bash
# Proves, builds and runs a program that is no crate of this repository: for as long as it runs, the files FOLDER/*.rattle are the sources of a crate
# of the folder's name, over the crates that FOLDER/uses lists.
#     checks/as_crate.sh FOLDER
set -eu
if [ $# -ne 1 ]; then
    echo "usage: checks/as_crate.sh FOLDER" >&2
    exit 2
fi
folder=$(readlink -f "$1")
name=$(basename "$folder")
cd "$(dirname "$(readlink -f "$0")")/.."
if [ -e "crates/$name" ]; then
    echo "crates/$name is there already" >&2
    exit 1
fi
kept=$(mktemp)
cp crates.txt "$kept"
trap 'cp "$kept" crates.txt; rm -rf "$kept" "crates/$name"' EXIT
mkdir -p "crates/$name/src"
for file in "$folder"/*.rattle; do
    cp "$file" "crates/$name/src/$(basename "$file" .rattle).rt"
done
echo "$name: $(cat "$folder/uses")" >> crates.txt
(cd "crates/$name" && rt run)
