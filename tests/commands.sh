#!/usr/bin/env bash
# The commands of the papers, word for word, print what the papers say that they print.
# A command is a block of lines with an indent of four, behind an empty line and outside fences, in README.md, docs/FRAMES.md, docs/REFUSALS.md, docs/DESK.md and docs/TOUR.md. Bash runs it at the top. Before
# the next one stands what it prints: a block that is fenced as `text`, or a picture, whose file has the same bytes. What prints neither has to be named below, with why.
# The two commands of docs/PAGE.md are run as well.
# No stand-ins: it runs the programs through tools/run and tools/nickelgrove, as a reader does; what it compares with is tried here on other texts.
set -u
cd "$(dirname "$0")/.." || exit 2
. tests/run.bash
papers=(README.md docs/FRAMES.md docs/REFUSALS.md docs/DESK.md docs/TOUR.md)

# The commands that are not run here, and why.
declare -A left=(
  ['bash .ci/run']='it is the gate, which runs this test'
  ['kiosk/test']='the gate runs it, behind this test'
  ['edits/run']='the gate runs it, beside this test'
  ['edits/run saw']='a part of the one before'
  ['tools/wasm kiosk']='tests/wasm.sh runs it'
  ['tools/page']='it is docs/PAGE.md'"'"'s first command, below'
  ['cd crates/saw && rt check']='it may prove a crate again, and what it says differs from one run to the next'
  ['oracle/test']='it installs packages and needs the Rust, which the gate does not (decision 10)'
  ['tools/native counter inspect && oracle/compare 1 100']='it needs the Rust, and takes long (decision 10)'
  ['oracle/bench']='it needs the Rust, and prints times (decision 10)'
)

# block N FILE: the N-th block of indented lines of a paper, without the indent
block() { awk -v n="$1" '/^    / { if (!inside) { inside = 1; at++ } if (at == n) print substr($0, 5); next } { inside = 0 }' "$2"; }

# Of each command of a paper, in order: PAPER.N.command, and what it prints as PAPER.N.said, or the name of a picture in PAPER.N.file. What is said under the next
# heading is not the command's.
read_paper() { # FILE
  awk -v name="$room/$(basename "$1" .md)" -v folder="$(dirname "$1")" '
    /^```/ {
      if (fence == "") { fence = $0 == "```text" && wanted ? "said" : "other"; if (fence == "said") { wanted = 0; printf "" > (name "." at ".said") } }
      else fence = ""
      before = $0
      next
    }
    fence == "said" { print > (name "." at ".said") }
    fence != "" { next }
    /^#/ { wanted = 0 }
    /^    / && (indented || before == "") { if (!indented) at++; indented = wanted = 1; print substr($0, 5) > (name "." at ".command"); before = $0; next }
    /^!\[/ && wanted { wanted = 0; picture = $0; sub(/.*\(/, "", picture); sub(/\).*/, "", picture); print folder "/" picture > (name "." at ".file") }
    { indented = 0; before = $0 }' "$1"
}
for paper in "${papers[@]}"; do read_paper "$paper"; done

# same FILE: what the command printed is this
same() { cmp "$1" "$room/printed"; }

meant=0 run=0
for paper in "${papers[@]}"; do
  for command in $(ls "$room/$(basename "$paper" .md)".*.command 2> /dev/null | sort -V); do
    words=$(cat "$command") said=${command%.command}.said
    [ ! -e "${command%.command}.file" ] || said=$(cat "${command%.command}.file")
    meant=$((meant + 1))
    if [ -n "${left[$words]:-}" ]; then
      [ ! -e "$said" ]
      tried $? "$paper: $words: not run: ${left[$words]}"
      unset "left[$words]"
    else
      [ -s "$said" ] && bash -o pipefail "$command" > "$room/printed" 2> "$room/errors" < /dev/null && same "$said"
      tried $? "$paper: $words" || cat "$room/errors"
      run=$((run + 1))
    fi
  done
done
[ ${#left[@]} -eq 0 ]
tried $? 'each command that is not run stands in a paper' || printf '%s\n' "${!left[@]}"
[ "$run" -ge 16 ] && [ -e "$room/FRAMES.1.command" ] && [ -e "$room/REFUSALS.1.command" ] && [ -e "$room/DESK.1.command" ] && [ -e "$room/TOUR.1.command" ]
tried $? "each paper has a command that is run: $run in all"
grep -q '| tools/run counter$' "$room/README.1.command" && [ "$(wc -l < "$room/README.1.said")" -eq 3 ]
tried $? "README's first command is over tools/run, and a block says what that prints"

# what is compared: not another text, and not another picture
bash "$room/README.1.command" > "$room/printed" 2> /dev/null < /dev/null
sed '2s/.$/0/' "$room/README.1.said" > "$room/other"
same "$room/README.1.said" && ! same "$room/other" > /dev/null
tried $? 'another text is told'
tools/nickelgrove draw docs/pictures/one.frames > "$room/printed" 2> /dev/null
same docs/pictures/one.svg && ! same docs/pictures/k.svg > /dev/null
tried $? 'another picture is told'

tools/run no_such_program > "$room/printed" 2> "$room/errors" < /dev/null
[ $? -eq 2 ] && [ ! -s "$room/printed" ] && grep -q counter "$room/errors"
tried $? 'tools/run of a name that is no program says which there are'

# docs/PAGE.md: the page is made where it says, and a saved session goes through the program
block 1 docs/PAGE.md > "$room/command"
bash "$room/command" > "$room/printed" 2> "$room/errors" < /dev/null && [ "$(cat "$room/printed")" = target/page/nickelgrove.html ] && [ -s target/page/nickelgrove.html ] &&
  grep -q "$(cat "$room/printed")" docs/PAGE.md
tried $? "docs/PAGE.md's first command: $(cat "$room/command")" || cat "$room/printed" "$room/errors"
block 2 docs/PAGE.md > "$room/command"
mkdir "$room/Downloads" && sed -n "s/^printf '\(.*\)' | tools\/run counter$/\1/p" "$room/README.1.command" | sed 's/\\n/\n/g; s/\n$//' > "$room/Downloads/nickelgrove-session.txt"
HOME=$room bash "$room/command" > "$room/printed" 2> "$room/errors"
same "$room/README.1.said"
tried $? "docs/PAGE.md's second command, on README's frames: $(cat "$room/command")" || cat "$room/errors"
finished $((meant + 8))
