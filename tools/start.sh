#!/usr/bin/env bash
# Runs a program of the repository: tools/start.sh NAME WORDS.. is what ./ftcore, ./ftjudge, ./fttell and ./ftoutcomes do. Once
# ./prove has built it, that is the proved program, and nothing is said or done besides. Until then, and after a source has
# changed, the answer is that of an unproved build with run-time checks, which is made first, is kept until a source changes, and
# is named in a line on standard error.
set -u
top=$(cd "$(dirname "$0")/.." && pwd) || exit 1
name=$1
out=$top/crates/$name/out
shift
case $name in
ftcore) how=./prove ;;
*) how="./prove $name" ;;
esac

say() { echo "$name: $1" >&2; }

# Whether the program $2 stands there with the mark $1, and nothing that this names has changed since (ftlog/proving/marks.py). That
# goes by the time at which a file last changed in any way, which no program can set back.
is_current() {
    local crates
    { [ -x "$2" ] && read -r && read -r -a crates; } <"$1" || return
    [ -z "$(cd "$top" && find "$2" crates.txt HANDLES "${crates[@]/#/crates/}" \
        \( -name out -o -name must-fail -o -name further \) -prune -o -cnewer "$1" -print -quit 2>&1)" ]
} 2>/dev/null

if is_current "$out/$name.proved" "$out/$name"; then
    exec "$out/$name" "$@"
elif is_current "$out/$name.unproved" "$out/unproved/$name"; then
    found=unproved
else
    found=$(cd "$top/tools" && python3 -B -m ftlog.proving.unproved "$name" </dev/null) || exit
fi
[ "$found" = proved ] && exec "$out/$name" "$@"
say "this answer is of an unproved build with run-time checks; $how builds the proved program"
[ "$found" = unproved ] && exec env -i "$out/unproved/$name" "$@"

# It couldn't be kept, so `rt try` answers.
room=$(mktemp -d) || exit 1
trap 'rm -rf "$room"' EXIT

# Only with these words is anything read. All input is read first, since `rt try` waits two seconds for more of it; what it
# takes at most is more than the program does. If it can't be read, the program would answer 4.
: >"$room/input"
case $name:${1-} in
ftcore:replay | ftcore:run) head -c 64M >"$room/input" 2>/dev/null || exit 4 ;;
fttell:steps) head -c 64M >"$room/input" 2>/dev/null || exit 4 ;;
fttell:facts | fttell:items | ftjudge:) head -c 1100M >"$room/input" 2>/dev/null || exit 4 ;;
ftoutcomes:random | ftoutcomes:search) head -c 64M >"$room/input" 2>/dev/null || exit 4 ;;
esac

(cd "$top/crates/$name" && rt try -- "$@") <"$room/input" >"$room/output" 2>"$room/log"
status=$?
if tail -n 1 "$room/log" | grep -q "^run=ended status=$status "; then
    # If standard output fails, the program answers 5.
    cat "$room/output" 2>/dev/null || exit 5
    exit "$status"
fi
why=$(grep -v '^run=' "$room/log" | tail -n 1)
case $why in
*"time limit") why="it hadn't ended within the time that rt try gives" ;;
esac
say "no answer: $why"
exit 1
