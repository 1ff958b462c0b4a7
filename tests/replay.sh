#!/usr/bin/env bash
# The Rust's recorded sessions through the counter, and those that tidy through the desk: tests/replay.sh [FRAMES [TIDYING]]
# What `inspect` says of sessions.in is held to the Rust's lines by rt, of which it is the recorded run, and what it says of long.in and of tidy.in by
# tests/stack.sh. The counter gets the short sessions up to the first line that asks to tidy, which it doesn't know.
# FRAMES is what `oracle gen 5 1 serials` writes: 206,366 lines, to the last serial (refusal 9). TIDYING is what `oracle gen 7 1 serials+tidy` writes: 206,398
# lines, with tidyings that find too few serials. They are too many for the gate.
set -u
cd "$(dirname "$0")/.." || exit 2
. tests/run.bash

writes 'the long sessions' recorded/long.out run counter < recorded/long.in
cut -d ' ' -f 1 recorded/sessions.out > "$room/answers"
sed '/^1b/,$d' recorded/sessions.in > "$room/counter.in"
head -n "$(wc -l < "$room/counter.in")" "$room/answers" > "$room/counter.out"
writes 'the short sessions' "$room/counter.out" run counter < "$room/counter.in"
writes 'the short sessions, and those that tidy, at the desk' "$room/answers" run desk < recorded/sessions.in
writes 'the long sessions that tidy, at the desk' recorded/tidy.out run desk < recorded/tidy.in
[ $# -gt 0 ] || finished 4

writes "$1 holds the frames of gen 5 1 serials" "$(recorded_digest 'gen 5 1 serials')" digest_of cat < "$1"
writes 'the session to the last serial' "$(recorded_digest 'counter on gen 5 1 serials')" digest_of run counter < "$1"
[ $# -gt 1 ] || finished 6

writes "$2 holds the frames of gen 7 1 serials+tidy" "$(recorded_digest 'gen 7 1 serials+tidy')" digest_of cat < "$2"
writes 'the session that tidies at the last serials' "$(recorded_digest 'desk on gen 7 1 serials+tidy')" digest_of run desk < "$2"
finished 8
