#!/usr/bin/env bash
# The tests, tested: every script of this folder that runs programs, and oracle/compare, must end in non-zero on programs that are wrong, and say what failed.
# Programs are replaced by stand-ins (PROGRAMS, see tests/run.bash). A script is one of these tests if it sources tests/run.bash; one that does not has to say why, in
# a line of its own such as the next. One that needs what a machine may not have says so, in a line such as '# Needs node.'
# No stand-ins: this is the script that makes them.
set -u
cd "$(dirname "$0")/.." || exit 2
. tests/run.bash
unset PROGRAMS

# What a script is given here, so that it takes less time. (On a stack that is too small all three programs are tried, below.)
declare -A arguments=([counter_random]=200000 [desk]=300 [stack]='deep_chain counter' [page]='day reopen counter page')

# Real words for a stand-in: the program of the same name, as the tests run it.
real='"crates/$(basename "$0")/out/$(basename "$0")"'

# stand_in KIND: a folder with the script on standard input under the name of each program. Each writes a line to the file RUNS when it has begun.
stand_in() {
  mkdir "$room/$1" || exit 2
  { echo '#!/usr/bin/env bash'; cat; } > "$room/$1/stand-in"
  chmod +x "$room/$1/stand-in"
  local name
  for name in crates/*/src/main.rt; do ln -s stand-in "$room/$1/$(basename "${name%/src/main.rt}")"; done
}

stand_in wrong <<'END_OF_SCRIPT'
# Answers every line, and the end of the input, with what is no answer.
echo "$0" >> "$RUNS"
export LC_ALL=C
while IFS= read -r line; do echo wrong; done
echo wrong
END_OF_SCRIPT

stand_in silent <<'END_OF_SCRIPT'
# Answers nothing. Where there is no input that may be right, and so does not count as a run.
if IFS= read -r -d '' -n 1 first; then echo "$0" >> "$RUNS"; fi
cat > /dev/null
END_OF_SCRIPT

stand_in dying <<END_OF_SCRIPT
# Answers rightly, and then dies: by its status, and in each second run by a signal.
echo "\$0" >> "\$RUNS"
$real
[ \$((\$(wc -l < "\$RUNS") % 2)) -eq 0 ] || exit 1
kill -KILL \$\$
END_OF_SCRIPT

stand_in stuck <<'END_OF_SCRIPT'
# Does nothing, without end.
echo "$0" >> "$RUNS"
exec sleep 1000
END_OF_SCRIPT

mkdir "$room/missing" || exit 2

# module KIND STATEMENT...: beside the programs of a kind a WebAssembly module with their step, as tools/wasm would make it
module() {
  local calls=(limit longest room session_bytes cuts step desk_longest desk)
  cat > "$room/module.c" <<END
typedef unsigned long long usize;
usize nickelgrove_limit(void) { return 255; }
usize nickelgrove_longest(void) { return 1035; }
usize nickelgrove_room(void) { return 2295; }
usize nickelgrove_session_bytes(void) { return 18432; }
unsigned short nickelgrove_cuts(const void *session, char *list) { return 65535; }
usize nickelgrove_step(void *session, const char *line, usize length, char *answer) { ${*:2} }
usize nickelgrove_desk_longest(void) { return 7151; }
usize nickelgrove_desk(void *session, const char *line, usize length, char *answer) { ${*:2} }
END
  "$tools/bin/clang" --target=wasm32-unknown-unknown --no-default-config -c "$room/module.c" -o "$room/module.o" &&
    "$tools/bin/ld.lld" -flavor wasm --no-entry --stack-first -z stack-size=$((1024 << 10)) "${calls[@]/#/--export=nickelgrove_}" --export=__heap_base \
      "$room/module.o" -o "$room/$1/kiosk.wasm" || exit 2
}
module wrong 'answer[0] = 0x30; answer[1] = 10; return 2;'
module silent 'answer[0] = 10; return 1;'
module dying '__builtin_trap();'
module stuck 'for (;;) {}'

stand_in late <<END_OF_SCRIPT
# Answers rightly, but only when the input has ended.
echo "\$0" >> "\$RUNS"
cat > "\$RUNS.in"
$real < "\$RUNS.in"
END_OF_SCRIPT

stand_in hoarding <<'END_OF_SCRIPT'
# Says of every line that it is malformed, and keeps it.
echo "$0" >> "$RUNS"
export LC_ALL=C
while IFS= read -r line || [ -n "$line" ]; do
  kept+=("$line")
  echo ff0ef3
done
END_OF_SCRIPT

stand_in heavy <<END_OF_SCRIPT
# Dies on a stack of 2 MiB.
echo "\$0" >> "\$RUNS"
[ "\$(ulimit -s)" = unlimited ] || [ "\$(ulimit -s)" -gt 2048 ] || kill -SEGV \$\$
$real
END_OF_SCRIPT

stand_in growing <<END_OF_SCRIPT
# Needs more of the stack to take a structure out than to take a part out, and to tidy many structures than to tidy one.
cat > "\$RUNS.in"
case \$(tail -n 1 "\$RUNS.in") in
  0400010100000003*) least=1088 ;;
  1be5) [ \$(wc -l < "\$RUNS.in") -lt 100 ] && least=1024 || least=1088 ;;
  *) least=1024 ;;
esac
[ "\$(ulimit -s)" = unlimited ] || [ "\$(ulimit -s)" -ge \$least ] || kill -SEGV \$\$
$real < "\$RUNS.in"
END_OF_SCRIPT

# fails KIND COUNT SCRIPT [ARGUMENT...]: the script ends in non-zero on the stand-ins of a kind and has a line for what failed: one for each run of a stand-in, and COUNT at
# least. Programs that answer get the time that they need.
fails() {
  local kind=$1 count=$2 waits=() ended runs failed
  shift 2
  local runs_file=$room/$kind.$(basename "$1")
  case $kind in silent | stuck | late) waits=(PATIENCE=1 LIMIT=2) ;; esac
  : > "$runs_file"
  env PROGRAMS="$room/$kind" RUNS="$runs_file" QUIET=0.1 "${waits[@]}" bash "$@" > "$room/log" 2>&1
  ended=$?
  runs=$(wc -l < "$runs_file")
  failed=$(grep -c '^FAILED: .' "$room/log")
  [ "$ended" -ne 0 ] && [ "$failed" -ge "$count" ] && [ "$failed" -ge "$runs" ]
  tried $? "$* fails on $kind programs: status $ended, $failed failures in $runs runs" || show
}

# what a script said that should have failed
show() { tail -n 5 "$room/log" | sed 's/^/  /'; }

kinds=(wrong silent dying stuck missing)
meant=0
for script in tests/*.sh; do
  name=$(basename "$script" .sh)
  needed=$(sed -n 's/^# Needs \([a-z]*\)\..*/\1/p' "$script")
  if grep -q '^# No stand-ins: .' "$script"; then
    continue
  elif [ -n "$needed" ] && ! command -v "$needed" > /dev/null; then
    echo "skipped: $script needs $needed, and there is none here"
  elif grep -qx '\. tests/run\.bash' "$script"; then
    for kind in "${kinds[@]}"; do
      fails "$kind" 1 "$script" ${arguments[$name]:-}
      meant=$((meant + 1))
    done
  else
    tried 1 "$script sources tests/run.bash, or says '# No stand-ins: ' and why"
    meant=$((meant + 1))
  fi
done
[ "$meant" -ge $((5 * ${#kinds[@]})) ]
tried $? 'five scripts at least were tried'

# What one script alone is to find.
fails late 1 tests/counter_pipe.sh
fails hoarding 1 tests/counter_random.sh 1000000
grep -q '^FAILED: flat memory' "$room/log"
tried $? 'it is the memory that tests/counter_random.sh finds'
fails heavy 3 tests/stack.sh
env PROGRAMS="$room/growing" RUNS="$room/growing.runs" bash tests/stack.sh counter > "$room/log" 2>&1
[ "$(grep -c '^FAILED: .* KiB' "$room/log")" -eq 2 ]
tried $? 'tests/stack.sh finds the stack that a removal needs for what it takes out' || show
env PROGRAMS="$room/growing" RUNS="$room/growing.runs" bash tests/stack.sh desk > "$room/log" 2>&1
[ "$(grep -c '^FAILED: .* KiB' "$room/log")" -eq 1 ]
tried $? 'and the one that a tidying needs' || show

# A page that is wrong, in a copy of the checkout: tests/page.sh has to find it.
copied() { # a new copy, in $room/copy
  rm -rf "$room/copy" && mkdir "$room/copy" && cp -r page tests tools docs "$room/copy" && ln -s "$PWD"/{target,recorded,crates,kiosk} "$room/copy"
}

# mutant NAME FILE OLD NEW: with NEW in the place of OLD, which is in the file once, NAME fails and the page is made all the same
mutant() {
  local name=$1 file=$2 old=$3 new=$4 text
  meant=$((meant + 1))
  copied && text=$(cat "$room/copy/$file") && [[ $text = *"$old"* ]] || { tried 1 "$file has: $old"; return; }
  printf '%s\n' "${text/"$old"/"$new"}" > "$room/copy/$file"
  MODULE=$page_module bash "$room/copy/tests/page.sh" "$name" > "$room/log" 2>&1
  [ $? -ne 0 ] && grep -q '^ok: the page is made' "$room/log" && [ "$(grep -c '^FAILED: ' "$room/log")" -eq 1 ]
  tried $? "tests/page.sh $name fails on a page with $new in $file" || show
}

mutants() {
  page_module=$(realpath "${MODULE:-$(tools/wasm kiosk)}")
  copied && MODULE=$page_module bash "$room/copy/tests/page.sh" day page > "$room/log" 2>&1
  tried $? 'tests/page.sh passes on a copy of the page' || show
  meant=$((meant + 1))
  mutant page page/page.html '@POLICY@' "default-src * 'unsafe-inline' 'unsafe-eval'"
  mutant words page/words.mjs 'the piece is gone' 'the piece is taken'
  mutant fields page/words.mjs '/^\d+$/' '/\d/'
  mutant frames page/frames.mjs 'check(answer) !== 0' 'false'
  mutant day page/glass.mjs 'this.#desk.restore()' 'this.#desk.keep()'
  mutant reopen page/desk.mjs '=== MALFORMED' '=== null'
  mutant located page/desk.mjs 'if (!refusal) return at;' 'return candidates[0];'
  mutant picture page/draw.mjs 'whole(before * free, total)' 'whole(before * free, total + 1)'
  mutant picture page/say.mjs "'Above', 'Below'" "'Below', 'Above'"
  mutant drill page/drill.mjs 'said.distance === cut.distance' 'true'
  mutant voice page/voice.mjs '({ localService }) => localService' '() => true'
  mutant frames page/frames.mjs '[1, stages], [1, blade])' '[1, stages])'
  mutant frames page/frames.mjs 'amounts.length !== cuts.length' 'false'
  mutant blade page/frames.mjs 'eaten: amounts[at]' 'eaten: 0'
  mutant blade page/saw.mjs 'rest ? [piece, rest] : [piece]' '[piece, rest ?? strip]'
  mutant blade page/words.mjs ', taken by the saw ${grouped(eaten)}' ''
  mutant blade page/desk.mjs 'this.sheet = this.#kept.sheet;' ''
  mutant blades page/pieces.mjs 'parent[edge] += node.eaten;' ''
  mutant strips page/draw.mjs '...strips.map((strip) => stripLine(strip, plan)),' ''
  mutant strips page/draw.mjs 'Math.max(strip.drawn[side], 2 * k)' 'strip.drawn[side]'
  mutant strips page/say.mjs '; the saw takes ${eaten}' ''
  mutant reopen page/desk.mjs '${hintFor(line)}' ''
  mutant drill page/drill.mjs 'said.eaten === cut.eaten' 'true'
  mutant frames page/frames.mjs '[TIDY]: (fields) => ({ count: fields.number(2) })' '[TIDY]: (fields) => ({ count: fields.number(1) + fields.number(1) })'
  mutant reopen page/desk.mjs ' || !isOfSession(line)' ''
  mutant tidy page/desk.mjs 'return this.send(write.tidy());' 'return this.#ask(write.tidy());'
  mutant tidy page/glass.mjs 'return touched.refusal ? touched : this.#desk.tidy();' 'return touched.refusal ? touched : { refusal: 0, count: 0 };'
  mutant tidy page/words.mjs "'1 structure was'" "'1 structures were'"
  if ! command -v chromium > /dev/null && ! command -v chromium-browser > /dev/null; then
    echo 'skipped: there is no chromium here, and no wrong page was opened in it'
    return
  fi
  mutant browser-day page/kiosk_view.mjs '${refused(answer.refusal)} The offer' 'The offer'
  mutant browser-touch page/picture.mjs 'if (tap) tappable(made, word, tap);' ''
  mutant browser-keys page/picture.mjs "event.key !== 'Enter'" "event.key !== 'F9'"
  mutant browser-blade page/kiosk_view.mjs "['blade', 'sheet-blade'," "['blade', 'sheet-stages',"
  mutant browser-blade page/kiosk_view.mjs "find('kiosk-strips').hidden = !figures || figures.eaten === 0;" ''
  mutant browser-blade page/saw_view.mjs "find('taken').textContent = takenBy(step);" ''
  mutant browser-blade page/saw_view.mjs "look: 'taken'" "look: 'veil'"
  mutant browser-blade page/draw.mjs '...strips.map((strip) => stripLine(strip, plan)),' ''
  mutant browser-tidy page/kiosk_view.mjs "else tell('word', tidied(count));" ''
  mutant browser-tidy page/kiosk_view.mjs ", find('tidy')]) button.disabled" ']) button.disabled'
  mutant browser-saw page/saw_view.mjs 'textContent = sentences[at]' 'textContent = sentences[0]'
  mutant browser-away page/app.mjs 'kiosk.tick() && tabs.again()' 'kiosk.tick()'
  mutant browser-drill page/drill_view.mjs 'this.#count(wrong.length === 0)' 'this.#count(true)'
  mutant browser-drill page/drill_view.mjs 'eaten: numbers.eaten ?? 0' 'eaten: this.#drill.blade'
  mutant browser-fields page/dom.mjs 'numbers[key] = number;' 'numbers[key] = number; find(id).value = "";'
  mutant browser-sizes page/style.css 'main { padding: 0.75rem; }' 'main { padding: 0.75rem; width: 400px; }'
  mutant browser-quiet page/page.html '@POLICY@' "default-src * data: 'unsafe-inline' 'unsafe-eval'"
}
if command -v node > /dev/null; then
  mutants
  fails wrong 3 tests/wasm.sh
  grep -q '^FAILED: the long sessions: .* differ' "$room/log" && grep -q '^ok: it imports nothing' "$room/log"
  tried $? 'it is the answers that tests/wasm.sh finds'
  meant=$((meant + 2))
fi

# ends STATUS WHAT: a test with the lines on standard input ends so
ends() {
  { echo '. tests/run.bash'; cat; } > "$room/test"
  bash "$room/test" > "$room/log" 2>&1
  [ $? -eq "$1" ]
  tried $? "$2" || show
}
ends 0 'a test that tries what it means to try ends with 0' <<< 'tried 0 one; (tried 0 two); finished 2'
ends 1 'one that tries nothing fails' <<< 'finished 0'
ends 1 'one that tries less than it means to fails' <<< 'tried 0 one; finished 2'
ends 1 'one that tries more than it means to fails' <<< 'tried 0 one; tried 0 two; finished 1'
ends 1 'one that is given up fails' <<< 'tried 0 one; finished'
ends 1 'a failure counts' <<< 'tried 1 one; tried 0 two; finished 2'
ends 1 'a failure behind a pipe counts' <<< 'true | tried 1 one; finished 1'
ends 1 'a failure in a subshell counts' <<< '(tried 1 one); finished 1'

# oracle/compare, on judges that stand in for the Rust: FRAMES is how many it generates, and `judge` is a script that answers them.
judge() { # NAME
  { echo '#!/usr/bin/env bash'; echo 'case "$*" in gen*) head -n "$FRAMES" recorded/sessions.in; exit ;; *--judges) sed s/.*/rust/; exit ;; esac'; cat; } > "$room/$1"
  chmod +x "$room/$1"
}
words_of inspect && inspect=$(printf '%q ' "${program[@]}")
words_of counter && counter=$(printf '%q ' "${program[@]}")
judge right <<< "case \"\$*\" in 'run --counter') $counter ;; *) $inspect ;; esac"
judge mute <<< 'cat > /dev/null'
judge failing <<< "case \"\$*\" in 'run --counter') $counter ;; *) $inspect ;; esac; exit 1"

# compares STATUS WHAT JUDGE PROGRAMS FRAMES BATCHES
compares() {
  env ORACLE="$room/$3" PROGRAMS="$4" FRAMES="$5" RUNS="$room/compare" oracle/compare 1 "$6" > "$room/log" 2>&1
  [ $? -eq "$1" ]
  tried $? "oracle/compare $2" || show
  rm -rf "$(sed -n 's/^DIFFERENT: .* frames: \(.*\)\/[0-9]*\.in$/\1/p' "$room/log")"
}
compares 0 'says that a batch is the same' right '' 20 1
compares 2 'refuses to compare 0 batches' right '' 20 0
compares 1 'fails on a batch without frames' right '' 0 1
compares 1 'fails where neither side says anything' mute "$room/silent" 20 1
compares 1 'fails where the judge dies' failing '' 20 1
compares 1 'fails on wrong programs' right "$room/wrong" 20 1
compares 1 'fails on dying programs' right "$room/dying" 20 1
finished $((meant + 22))
