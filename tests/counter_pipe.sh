#!/usr/bin/env bash
# Drives the counter over an open pipe: each answer comes before the next frame is sent, however a frame is cut into writes.
# QUIET: how many seconds without an answer are a silence, 1 unless given.
set -u
cd "$(dirname "$0")/.." || exit 2
. tests/run.bash
quiet=${QUIET:-1}
words_of counter
mkfifo "$room/frames" "$room/answers" || exit 2
timeout --foreground "$limit" "${program[@]}" < "$room/frames" > "$room/answers" &
process=$!
exec 4> "$room/frames" 3< "$room/answers"

# A program that is gone is told by its missing answer, and must not end this shell by the signal for a write that nobody reads.
trap : PIPE
send() { printf "$1" >&4; } 2> /dev/null

# answer WHAT LINE: the next answer, which comes while there is patience; after one that does not come there is no point in going on
answer() {
  local line=
  if ! IFS= read -r -t "$patience" line <&3; then
    tried 1 "$1: no answer"
    finished
  fi
  [ "$line" = "$2" ]
  tried $? "$1"
}

# silence WHAT: nothing is answered for a while
silence() {
  local line=
  ! IFS= read -r -t "$quiet" line <&3 && [ -z "$line" ]
  tried $? "$1"
}

open=010001000000640000003c0103005a opened=010000010100000002fb
insert=03000101000000020007000000280000003c0000018d inserted=030000010100000003000101000000030100010200000004eb
report=07f9

send "$report\n"
answer 'a report before a sheet is opened' 0701f8
send "$open\n"
answer 'an opening' "$opened"
send "$insert\n"
answer 'a booking' "$inserted"
send "$insert\n"
answer 'the same booking again' 0305f8

# one frame in several pieces, its newline last and alone
for piece in "${open:0:1}" "${open:1:9}" "${open:10}"; do
  send "$piece"
  silence "no answer to a part of a frame, ${#piece} characters more"
done
send '\n'
answer 'the frame, when its newline has come' "$opened"
for ((i = 0; i < ${#insert}; i++)); do send "${insert:i:1}"; done
send '\n'
answer 'a frame sent character by character' "$inserted"

# several lines in one write, and a part of the next
send "$report\n\nzz\n${report:0:2}"
answer 'the first of three lines' 07000000000000000960033fd999999999999ade
answer 'the second, which is empty' ff0ef3
answer 'the third, which is no frame' ff0ef3
silence 'no answer to the part of a fourth'
send "${report:2}\n"
answer 'the fourth, when it is whole' 07000000000000000960033fd999999999999ade

# a line that is too long, in pieces: one answer, when its newline has come
for piece in 1 2 3; do
  send "$(printf '%*s' 100 '' | tr ' ' 0)"
  silence "no answer to a part of a line that is too long, $piece"
done
send '\n'
answer 'the line that is too long' ff0ef3
send "$report\n"
answer 'the line after it' 07000000000000000960033fd999999999999ade

# the end of the input, in a line
send "$report"
exec 4>&-
answer 'a last line without its newline' ff0ef3
silence 'nothing after it'
wait "$process"
tried $? 'the counter ended with status 0'
process=

# Whoever reads the answers goes away, and most of them are still to come: more than a pipe holds. The counter ignores SIGPIPE, is told by the write's error, and ends
# quietly, with status 0 (decision 29).
words_of counter
timeout --foreground "$limit" env --default-signal=PIPE "${program[@]}" < crates/counter/stdin 2> "$room/err" | head -n 1 > /dev/null
ended=${PIPESTATUS[0]}
[ "$ended" -eq 0 ] && [ ! -s "$room/err" ]
tried $? "when nobody reads its answers the counter ends quietly, status 0: $ended"
finished 23
