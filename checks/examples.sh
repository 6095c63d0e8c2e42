#!/usr/bin/env bash
# Runs each example that has a server of its own; each ends by itself, and with status 0 where all is as it says.
# checks/examples.sh PROGRAM
set -eu
if [ $# -ne 1 ]; then
    echo "usage: checks/examples.sh PROGRAM" >&2
    exit 2
fi
here=$(cd "$(dirname "$0")" && pwd)
for example in cache pool watch; do
    timeout 240 python3 "$here/../examples/$example.py" "$1"
    echo "ok $example"
done
