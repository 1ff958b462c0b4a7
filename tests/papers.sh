#!/usr/bin/env bash
# The sessions of the papers, through the counter, and those of docs/DESK.md through the desk: tests/papers.sh [long]
# A block that is fenced as `session` is a run of the program from its start. A line of it is SENT -> ANSWER, with words behind two spaces; what is sent may be empty.
# What stands between `repeat N` and `end` is sent N times, and there an answer * is any that is accepted. Sessions that repeat are too long for the gate: they are run if
# `long` is said.
# docs/RULES.md has each section of document 01 that is cited by its name. Each refusal that frames can reach has a session in docs/REFUSALS.md, in the section with its
# number, and so has each op with each number of that page's table.
set -u
cd "$(dirname "$0")/.." || exit 2
. tests/run.bash
papers=(RULES FRAMES REFUSALS DIFFERENCES DESK)

# Of each session, in the order of the papers: PAPER.N.sent, its lines; PAPER.N.said, their answers; PAPER.N.long, if it repeats. A line for each answer in `marks`:
# the paper, the number of its section, the answer's op and its second byte. What is neither goes to `unread`.
read_paper() { # FILE
  awk -v room="$room" -v paper="$(basename "$1" .md)" '
    function send(line, answer) {
      print line > (name ".sent")
      print answer > (name ".said")
    }
    function give(line, answer) {
      print paper, section, substr(answer, 1, 2), substr(answer, 3, 2) >> (room "/answers")
      if (times) { lines[++kept] = line; said[kept] = answer } else send(line, answer)
    }
    /^## / { section = $2 + 0 }
    /^```/ && !inside { inside = $0 == "```session" ? 1 : 2; if (inside == 1) { name = room "/" paper "." ++count; times = kept = 0 } next }
    /^```/ { if (inside == 1) { close(name ".sent"); close(name ".said") } inside = 0; next }
    inside != 1 { next }
    /^repeat [0-9]+$/ && !times { times = $2; print times > (name ".long"); next }
    $0 == "end" && times { for (; times > 0; times--) for (i = 1; i <= kept; i++) send(lines[i], said[i]); kept = 0; next }
    /^[^>]* -> [0-9a-f]+(  .*)?$/ || times && /^[^>]* -> \*(  .*)?$/ {
      line = answer = $0
      sub(/ -> .*/, "", line)
      sub(/^[^>]* -> /, "", answer)
      sub(/  .*/, "", answer)
      give(line, answer)
      next
    }
    { print FILENAME ":" FNR ": " $0 >> (room "/unread") }
    END { if (inside || times) print FILENAME ": a block without its end" >> (room "/unread") }' "$1"
}
: > "$room/answers" && : > "$room/unread"
for paper in "${papers[@]}"; do read_paper "docs/$paper.md"; done
[ ! -s "$room/unread" ]
tried $? 'each line of a session is SENT -> ANSWER' || cat "$room/unread"

# starred ANSWERS: what the counter writes, with * for an answer that is accepted where these answers have one; the status is the counter's
starred() {
  run counter | awk -v answers="$1" '{ getline said < answers } said == "*" && substr($0, 3, 2) == "00" { $0 = said } { print }'
  return "${PIPESTATUS[0]}"
}
long=0
for paper in "${papers[@]}"; do
  for sent in $(ls "$room/$paper".*.sent | sort -V); do
    session=${sent%.sent} answers=(run counter)
    [ $paper != DESK ] || answers=(run desk)
    if [ -e "$session.long" ]; then
      long=$((long + 1)) answers=(starred "$session.said")
      [ "${1:-}" = long ] || continue
    fi
    writes "docs/$paper.md, session ${session##*.}: $(wc -l < "$sent") lines" "$session.said" "${answers[@]}" < "$sent"
  done
done
[ "$long" -eq 1 ]
tried $? 'one session is long'
sessions=29
[ "${1:-}" != long ] || sessions=$((sessions + long))

# The bytes of docs/RULES.md are those that `inspect` shows: a tree snapshot after the first line of its fifth session, the light after the last line of the fourth, a list
# of cuts after the second line of the fifth, and a list of cuts and their amounts after the fifth line of the sixth, which has a blade.
bytes_in() { awk '/^```/ { inside = $0 == "```text"; if (bytes != "") print bytes; bytes = ""; next } inside && /^[0-9a-f ]+$/ { gsub(/ /, ""); bytes = bytes $0 }' "$1"; }
shown() { # LINE FIELD
  run inspect | awk -v line="$1" -v field="$2" 'NR == line { print $field }'
  return "${PIPESTATUS[0]}"
}
bytes_in docs/RULES.md > "$room/bytes"
[ "$(wc -l < "$room/bytes")" -eq 5 ]
tried $? 'docs/RULES.md has five blocks of bytes'
sed -n 1p "$room/bytes" > "$room/bytes.snapshot"
sed -n 2p "$room/bytes" > "$room/bytes.light"
sed -n 3p "$room/bytes" > "$room/bytes.cuts"
sed -n 4p "$room/bytes" > "$room/bytes.sawn"
sed -n 5p "$room/bytes" > "$room/bytes.amounts"
writes 'the snapshot of docs/RULES.md' "$room/bytes.snapshot" shown 1 2 < "$room/RULES.5.sent"
writes 'the light of docs/RULES.md' "$room/bytes.light" shown 4 7 < "$room/RULES.4.sent"
writes 'the cuts of docs/RULES.md' "$room/bytes.cuts" shown 2 8 < "$room/RULES.5.sent"
writes 'the cuts of docs/RULES.md with a blade' "$room/bytes.sawn" shown 5 8 < "$room/RULES.6.sent"
writes 'and their amounts' "$room/bytes.amounts" shown 5 9 < "$room/RULES.6.sent"

# The numbers, against the papers' own words.
given() { awk -v number="$1" '$1 == "REFUSALS" && $2 == number && $4 == sprintf("%02x", number)' "$room/answers" | grep -q .; } # NUMBER
for number in 1 2 3 4 5 6 7 8 9 10 11 14; do
  grep -q "^## $number\. " docs/REFUSALS.md && given $number
  tried $? "refusal $number has its section, and a session that is answered with it"
done
for number in 12 13; do
  grep -q "^## $number\. " docs/REFUSALS.md && ! given $number
  tried $? "refusal $number, which no frame is given, has its section"
done

# The table of ops: an op and a number in hexadecimal for each refusal that it lists.
awk -F ' *\\| *' '/^\| op \| refusals \|$/ { inside = 1; next } !/^\|/ { inside = 0 }
  inside && $2 ~ /^[0-9f][0-9f]/ { count = split($3, numbers, ", "); for (i = 1; i <= count; i++) printf "%s %02x\n", substr($2, 1, 2), numbers[i] }' docs/REFUSALS.md |
  sort > "$room/listed"
awk '$1 == "REFUSALS" && $4 != "00" && $4 != "" { print $3, $4 }' "$room/answers" | sort -u > "$room/seen"
[ "$(wc -l < "$room/listed")" -eq 25 ]
tried $? "the table of ops lists $(wc -l < "$room/listed") refusals"
diff "$room/listed" "$room/seen"
tried $? 'a session of docs/REFUSALS.md is answered with each of them, and with no other'

# What the files cite by the name of a section of document 01, docs/RULES.md has.
grep -rhIoE '[Dd]ocument 01, "[^"]+"(( and|,) "[^"]+")*' README.md crates docs kiosk oracle recorded tests |
  grep -oE '"[^"]+"' | sed 's/"//g; s/ (.*//; s/:.*//' | sort -u > "$room/cited"
sed -n 's/^###* //p' docs/RULES.md | sort > "$room/sections"
[ "$(wc -l < "$room/cited")" -ge 10 ] && [ -z "$(comm -23 "$room/cited" "$room/sections")" ]
tried $? "docs/RULES.md has the $(wc -l < "$room/cited") sections that are cited" || comm -23 "$room/cited" "$room/sections"
finished $((sessions + 25))
