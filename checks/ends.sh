#!/usr/bin/env bash
# Tries each way in which `refheap run`, `refheap serve` and `refheap client` end: the exit status, and what goes to the standard error.
# checks/ends.sh [PROGRAM]
set -u
here=$(cd "$(dirname "$0")" && pwd)
program=${1:-$here/../crates/refheap/out/refheap}
failed=0

# The second lines, with reasons.
in_use='refheap: it is in use: remove it if no server runs there, or name another path'
missing='refheap: there is no such file or folder: check the path'
too_long='refheap: the name is empty or too long: a name has at most 255 bytes, a socket'"'"'s path 107, and 103 with a mode'
no_thread='refheap: no thread can be started: raise the limit of processes'

# ends NAME STATUS LINE: a case, the status that is due, and the line that is due on the standard error. The case is read from the
# file that `try` wrote.
check() {
    local name=$1 wanted=$2 line=$3 status=$4 said
    said=$(cat "$errors")
    if [ "$status" = "$wanted" ] && [ "$said" = "$line" ]; then
        echo "ok      $name: status $status ${line:+($line)}"
    else
        echo "WRONG   $name: status $status, said '$said'; due are $wanted and '$line'"
        failed=1
    fi
}

errors=$(mktemp)
trap 'rm -f "$errors"' EXIT

"$program" run --cells 16 </dev/null >/dev/null 2>"$errors"
check "empty input" 0 "" $?
printf 'bye\ngc\n' | "$program" run --cells 16 >/dev/null 2>"$errors"
check "bye" 0 "" $?
printf 'new -\nbye' | "$program" run --cells 16 >/dev/null 2>"$errors"
check "an unfinished last line" 4 "refheap: unfinished line" $?
"$program" run --cells 16 </ >/dev/null 2>"$errors"
check "the input is a directory" 1 "refheap: read failed" $?
printf 'new -\n' | "$program" run --cells 16 >/dev/full 2>"$errors"
check "the output is full" 1 "refheap: write failed" $?
printf 'new -\n' | "$program" run --cells 16 >&- 2>"$errors"
check "the output is closed" 1 "refheap: write failed" $?
{ yes 'same 0 0' | "$program" run --cells 16 2>"$errors"; echo "${PIPESTATUS[1]}" >"$errors.status"; } | head -n 1 >/dev/null
check "the output goes away" 1 "refheap: write failed" "$(cat "$errors.status")"
rm -f "$errors.status"
"$program" run --cells 15 </dev/null >/dev/null 2>"$errors"
status=$?
if [ -s "$errors" ]; then
    echo "told" >"$errors"
fi
check "too few cells, with the text of the command line" 2 "told" $status
"$program" run --soft-age 1001 </dev/null >/dev/null 2>"$errors"
status=$?
if [ -s "$errors" ]; then
    echo "told" >"$errors"
fi
check "too high a soft age, with the text of the command line" 2 "told" $status
"$program" run --cells $'\xff' </dev/null >/dev/null 2>"$errors"
status=$?
if grep -q "a word of the command line is not UTF-8 text" "$errors"; then
    echo "told" >"$errors"
fi
check "a word that is no text, with what is wrong" 2 "told" $status

folder=$(mktemp -d)
trap 'rm -rf "$errors" "$folder"' EXIT
socket=$folder/socket

# told STATUS: keeps the status, and puts the word told in place of the text of the command line, where there is one.
told() {
    status=$1
    if [ -s "$errors" ]; then
        echo "told" >"$errors"
    fi
}

# client: a client that says nothing but bye, once there is a server
client() {
    python3 - "$socket" <<'END'
import os, socket, sys, time
for _ in range(500):
    if os.path.exists(sys.argv[1]):
        break
    time.sleep(0.01)
with socket.socket(socket.AF_UNIX) as stream:
    stream.connect(sys.argv[1])
    stream.sendall(b"bye\n")
    sys.exit(stream.recv(10) != b"ok\n")
END
}

# left FILE NAME: that a file of the user's is left alone, whose line is mine
left() {
    if [ "$(cat "$1")" != "mine" ]; then
        echo "WRONG   $2: the file is not left alone"
        failed=1
    fi
}

# gone NAME: that nothing lies where a server listened
gone() {
    if [ -e "$socket" ]; then
        echo "WRONG   $1: the socket is still there"
        failed=1
    fi
}

client &
"$program" serve --socket "$socket" --total 1 --sessions 1 >"$folder/said" 2>"$errors"
check "a server of one client" 0 "" $?
gone "a server of one client"
if [ "$(cat "$folder/said")" != "served 1
entries 2" ]; then
    echo "WRONG   a server of one client said '$(cat "$folder/said")'"
    failed=1
fi
client &
"$program" serve --socket "$socket" --total 1 >/dev/full 2>"$errors"
check "a server whose output is full" 1 "refheap: write failed" $?
gone "a server whose output is full"
echo "mine" >"$folder/file"
"$program" serve --socket "$folder/file" --total 1 2>"$errors"
check "a server where a file is" 1 "refheap: cannot listen on $folder/file"$'\n'"$in_use" $?
left "$folder/file" "a server where a file is"
"$program" serve --socket "$folder/file" --mode 600 --total 1 2>"$errors"
check "a server with a mode where a file is" 1 "refheap: cannot listen on $folder/file"$'\n'"$in_use" $?
"$program" serve --socket "$socket" --control "$folder/file" --total 1 2>"$errors"
check "a server whose socket of control is a file" 1 "refheap: cannot listen on $folder/file"$'\n'"$in_use" $?
left "$folder/file" "a server whose socket of control is a file"
gone "a server whose socket of control is a file"
echo "mine" >"$socket.new"
timeout 60 "$program" serve --socket "$socket" --mode 600 --total 1 2>"$errors"
check "a server with a mode whose new socket is a file" 1 "refheap: cannot listen on $socket"$'\n'"$in_use" $?
left "$socket.new" "a server with a mode whose new socket is a file"
gone "a server with a mode whose new socket is a file"
rm -f "$socket.new"
echo "mine" >"$folder/control.new"
timeout 60 "$program" serve --socket "$socket" --control "$folder/control" --total 1 2>"$errors"
check "a server whose new socket of control is a file" 1 "refheap: cannot listen on $folder/control"$'\n'"$in_use" $?
left "$folder/control.new" "a server whose new socket of control is a file"
gone "a server whose new socket of control is a file"
rm -f "$folder/control.new"

# clients: a server of clients that cannot write what they are told, or cannot read what they are to send
control=$folder/control
"$program" serve --socket "$socket" --control "$control" --total 9 --sessions 1 >/dev/null 2>"$folder/said" &
server=$!
for _ in {1..1000}; do
    [ -e "$control" ] && break
    sleep 0.01
done
printf 'new -\n' | timeout 60 "$program" client "$socket" >/dev/full 2>"$errors"
check "a client whose output is full" 1 "refheap: write failed" $?
printf 'new -\n' | timeout 60 "$program" client "$socket" >&- 2>"$errors"
check "a client whose output is closed" 1 "refheap: write failed" $?
timeout 60 "$program" client "$socket" </ >/dev/null 2>"$errors"
check "a client whose input is a directory" 1 "refheap: read failed" $?
timeout 60 "$program" client "$socket" <&- >/dev/null 2>"$errors"
check "a client whose input is closed" 1 "refheap: read failed" $?
printf 'new -\nbye\n' | timeout 60 "$program" client "$socket" >"$folder/told" 2>"$errors"
check "a client after those" 0 "" $?
if [ "$(cat "$folder/told")" != "= 1
ok" ]; then
    echo "WRONG   a client after those was told '$(cat "$folder/told")'"
    failed=1
fi
timeout 60 "$program" stop "$control" 2>"$errors"
check "the stop of their server" 0 "" $?
wait "$server"
status=$?
cp "$folder/said" "$errors"
check "their server" 0 "" $status
gone "their server"

"$program" run --save "$folder/history" </dev/null >/dev/null
for words in "audit $folder/history" "audit --explain $folder/history" "audit --json $folder/history" "stats $folder/history" \
    "stats --json $folder/history" commands "commands weak" version; do
    "$program" $words >/dev/full 2>"$errors"
    check "${words//$folder\//}, whose output is full" 1 "refheap: write failed" $?
done
"$program" serve --socket "$folder/none/socket" --total 1 2>"$errors"
check "a server where no folder is" 1 "refheap: cannot listen on $folder/none/socket"$'\n'"$missing" $?
long=$folder/$(printf 'x%.0s' {1..200})
"$program" serve --socket "$long" --total 1 2>"$errors"
check "a server at a path that is too long" 1 "refheap: cannot listen on $long"$'\n'"$too_long" $?
(
    ulimit -v 200000
    exec "$program" serve --socket "$socket" --total 1 --sessions 64 2>"$errors"
)
check "a server whose threads cannot be started" 1 "refheap: cannot listen on $socket"$'\n'"$no_thread" $?
gone "a server whose threads cannot be started"
for words in "--total 1" "--socket $socket" "--socket $socket --total 0" "--socket $socket --total 1000001" "--socket $socket --total 01" \
    "--socket $socket --total 1 --sessions 0" "--socket $socket --total 1 --sessions 65" "--socket $socket --total 1 --cells 15" "--help"; do
    "$program" serve $words </dev/null >/dev/null 2>"$errors"
    told $?
    check "serve ${words//$folder\//}, with the text of the command line" 2 "told" $status
    gone "$words"
done
exit $failed
