#!/usr/bin/env bash
# The page (tools/page): its modules in node, and all of it in a browser: tests/page.sh [NAME...]
# A name is that of one thing to try, below; without one all are tried. What each should say stands in tests/page/NAME.txt.
# MODULE names a WebAssembly module to try it on, as it is; unless it is given the module is the proved one. COMMAND names a command to compare diagrams and sentences
# with; unless it is given it is tools/nickelgrove.
# Needs node. The browser is Debian's chromium: where there is none, what needs it is skipped, and so is the comparison where there is no cargo.
set -u
cd "$(dirname "$0")/.." || exit 2
. tests/run.bash
only=" $* " meant=0

# wanted NAME: whether it is to be tried, and so one thing more
wanted() {
  [[ $only = '  ' || $only = *" $1 "* ]] || return
  meant=$((meant + 1))
}

page=$room/page.html module=${MODULE:-}
[ -z "${PROGRAMS:-}" ] || module=$programs/kiosk.wasm
tools/page "$page" ${module:+"$module"} > "$room/made" 2>&1 && [ -s "$page" ]
tried $? "the page is made: $(wc -c < "$page" 2> /dev/null) bytes" || cat "$room/made"
meant=$((meant + 1))
module=${module:-target/wasm/kiosk.wasm}
command -v node > /dev/null || { echo 'skipped: there is no node here, and the page was not tried'; finished $meant; }

# Its modules, in node.
ask() { timeout --foreground "$limit" node tests/page.mjs "$@"; }
says() { # NAME WHAT [WORD...]: what the modules say to this question
  ! wanted "$1" || writes "$2" "tests/page/$1.txt" ask "$1" "$module" "${@:3}"
}
# frames_of NAME: recorded lines but for those that are no frames, which are no part of a session, and an error to the command
frames_of() { paste -d ' ' "recorded/$1.in" <(cut -d ' ' -f 1 "recorded/$1.out") | awk '$NF != "ff0ef3" { print $1 }'; }
says page 'what is in it: the module, its policy, and nothing from elsewhere' "$page"
sed -n '/^| no\. | in a word /,/^$/s/^| [0-9]/&/p' docs/REFUSALS.md > "$room/refusals"
! wanted words || writes 'the words of the refusals, as docs/REFUSALS.md has them' "$room/refusals" ask words "$module"
says fields 'bad numbers in a field'
says frames 'frames and answers, on the recorded lines' recorded/sessions.in recorded/sessions.out
says day 'a day at the kiosk, with a timeout and a stale offer' "$room/day"
frames_of sessions > "$room/sessions"
says reopen 'a session that is opened again, and files that are none' "$room/sessions"
says located 'each free piece is found in the diagram'
printf '%s\n' 010001000000640000003c0103005a 03000101000000020007000000280000001e010003a8 030001040000000600080000000100000003000004e2 > "$room/small"
says picture 'a small sheet in a diagram and in sentences, as the command nickelgrove made them when they were recorded' "$room/small"
printf '%s\n' 010001000007d0000004b00103036c 03000101000000020007000003200000025801000371 03000104000000060008000004ab000003e80100034c > "$room/bladed"
! wanted strips || writes 'a sheet with a saw blade of 3, in the same way' tests/page/strips.txt ask picture "$module" "$room/bladed"
says blade 'a day with a saw blade of 3, with a timeout, panels taken out, and its width back with what was kept' "$room/blade"
says blades 'sheets with blades of many widths' "$room/blades"
says tidy 'panels taken out and the sheet tidied, with an offer that is stale then, and with a timeout' "$room/tidied"
says drill 'the drill, on 200 seeds, without a blade and with one'
says voice "a voice of the machine's own"

# A saved session, through the program desk: the same answers; and through the program counter, which knows no tidying.
in_program() { # NAME WHAT FILE [PROGRAM]: the program is counter unless it is given
  wanted "$1" || return
  local program=${4:-counter} question=answers
  [ $program = counter ] || question=desk
  [ -s "$3" ] && timeout --foreground "$limit" node tests/wasm.mjs $question "$module" < "$3" > "$room/answers"
  writes "$2" "$room/answers" run $program < "$3"
}
[ -e "$room/day" ] || : > "$room/day"
in_program counter 'its session through the program counter' "$room/day"
[ -e "$room/blade" ] || : > "$room/blade"
in_program counter_blade 'and that of the day with a blade' "$room/blade"
in_program desk_blade 'the same through the program desk' "$room/blade" desk
[ -e "$room/tidied" ] || : > "$room/tidied"
in_program desk_tidy 'and that of the sheet that is tidied' "$room/tidied" desk

# Diagrams and sentences, beside those of the command.
command=${COMMAND:-tools/nickelgrove}
for kind in draw say; do
  for name in sessions long blades; do
    wanted "$kind" || continue
    if [ ! -x "$command" ] || { [ -z "${COMMAND:-}" ] && ! command -v cargo > /dev/null; }; then
      echo "skipped: there is no $command here, or no cargo for it, and the page's $kind of $name was not compared with the command's"
      meant=$((meant - 1))
      continue
    fi
    if [ $name = blades ]; then ask blades "$module" "$room/frames" > /dev/null; else frames_of "$name" > "$room/frames"; fi
    "$command" "$kind" --each "$room/frames" > "$room/by_command"
    writes "$kind after each line of $name, as the command nickelgrove does it" "$room/by_command" ask "$kind" "$module" "$room/frames"
  done
done

# The page in a browser.
browser=$(command -v chromium || command -v chromium-browser || true)
look() { # QUESTION [SESSION]
  rm -rf "$room/browser" && mkdir "$room/browser" && BROWSER=$browser timeout --foreground "$limit" node tests/page_browser.mjs "$1" "$page" "$room/browser" ${2:+"$2"}
}
shows() { # NAME WHAT [SESSION]
  wanted "browser-$1" || return 0
  if [ -z "$browser" ]; then
    echo "skipped: there is no chromium here, and the page was not opened in a browser: $2"
    meant=$((meant - 1))
    return 1
  fi
  writes "$2, in a browser" "${expected:-tests/page/browser-$1.txt}" look "$1" ${3:+"$3"}
}
shows day 'a day at the kiosk with a timeout, the stale offer refused, the session saved'
if [ -e "$room/browser/nickelgrove-session.txt" ]; then
  in_program browser-day 'the session that was saved, through the program counter' "$room/browser/nickelgrove-session.txt"
  ! wanted browser-day || writes 'and it is the one that was recorded' tests/page/session.txt cat "$room/browser/nickelgrove-session.txt"
fi
shows touch 'the kiosk with a finger, at 320 pixels'
shows keys 'the kiosk with keys alone'
shows blade 'a day with a saw blade of 3, its cuts, a removal put back, a panel taken out'
shows tidy 'panels taken out, the sheet tidied, an offer stale by that, the session saved and opened again'
[ ! -e "$room/browser/nickelgrove-session.txt" ] ||
  in_program browser-tidy 'that session, through the program desk' "$room/browser/nickelgrove-session.txt" desk
ask sheet "$module" "$room/sheet" > "$room/sentences" 2> /dev/null
{ echo 'sheet is open: 13 lines were sent.'; cat "$room/sentences" tests/page/browser-saw.txt; } > "$room/saw"
expected=$room/saw shows saw 'a saved session opened, its cuts stepped through' "$room/sheet"
shows away 'a timeout and an opened session while something else is looked at' "$room/sheet"
shows drill 'a drill, answered'
shows fields 'bad input in every field'
shows sizes 'the views at 320, 768 and 1,920 pixels'
shows quiet 'nothing leaves the page'
finished $meant
