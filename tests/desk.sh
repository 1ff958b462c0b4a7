#!/usr/bin/env bash
# The desk over the Rust's recorded sessions: the counter's lines with the counter's answers, and each of the desk's own questions, in every state of the
# short sessions, held to what the Rust's line of `inspect` has (tests/desk.awk). The states of these sessions, tidied, held to the tree that the Rust's line
# leaves by a rule of the test's own (tests/tidy.awk). The long sessions, chains to level 253 among them, on a stack of 2 MiB. And the desk's own ops are
# malformed at the counter: tests/desk.sh [LINES]
# LINES is how many lines of the short sessions are taken; all of them unless it is given.
set -u
cd "$(dirname "$0")/.." || exit 2
. tests/run.bash

lines=${1:-$(wc -l < recorded/sessions.in)}
for side in in out; do head -n "$lines" recorded/sessions.$side > "$room/sessions.$side"; done
awk -v sent="$room/sent" -v said="$room/said" -f tests/desk.awk "$room/sessions.in" "$room/sessions.out"
[ "$(wc -l < "$room/sent")" -ge $((lines * 9)) ] && grep -q '^11' "$room/sent" && grep -q '^1100.*05' "$room/said"
tried $? "there are $(wc -l < "$room/sent") lines, $(grep -c '^11' "$room/sent") of them why not"

# as_left_open ANSWERS: what the desk writes, with dots for a reason other than 05, and for the check behind it, where these answers have dots; the status is the
# desk's
as_left_open() {
  run desk | awk -v answers="$1" '
    function reason(open, shown) { return open == ".." && shown ~ /^0[0-4]$/ ? open : shown }
    { getline said < answers }
    said ~ /\./ && length($0) == length(said) { $0 = substr($0, 1, 4) reason(substr(said, 5, 2), substr($0, 5, 2)) reason(substr(said, 7, 2), substr($0, 7, 2)) ".." }
    { print }'
  return "${PIPESTATUS[0]}"
}
writes 'the short sessions, each line with every question that the Rust has an answer to' "$room/said" as_left_open "$room/said" < "$room/sent"
writes 'the long sessions, as at the counter, on a stack of 2 MiB' recorded/long.out run_on_stack 2048 desk < recorded/long.in
awk -v sent="$room/untidy" -v said="$room/tidied" -f tests/tidy.awk "$room/sessions.in" "$room/sessions.out"
found=$(grep -c '^1b0000' "$room/tidied") more=$(grep -c '^1b0000[0-9a-f][1-9a-f]' "$room/tidied")
[ "$more" -ge $((lines / 50)) ] && grep -q '^1b00000[2-9]' "$room/tidied"
tried $? "there are $found lines that tidy, $more of which find something"
writes 'the states of the short sessions, tidied' "$room/tidied" run desk < "$room/untidy"
{ grep '^1[1-9a]' "$room/sent" | sort -u | head -n 2000; echo 1be5; } > "$room/own"
sed 's/.*/ff0ef3/' "$room/own" > "$room/malformed"
writes "the desk's own ops at the counter: malformed" "$room/malformed" run counter < "$room/own"
finished 6
