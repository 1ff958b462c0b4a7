#!/usr/bin/env bash
# The archive's calls as a WebAssembly module (tools/wasm), run in node by the loader of a page (page/nickelgrove.mjs): the Rust's recorded sessions, what the
# module exports, and its stack. And of a crate that is not proved there is no module.
# Needs node. Where there is none the module is made and not run.
set -u
cd "$(dirname "$0")/.." || exit 2
. tests/run.bash
kib=1024 # of stack, which a module has unless tools/wasm is told another number
meant=0

# means COUNT: so many things more are to be tried
means() { meant=$((meant + $1)); }

# ask QUESTION MODULE [KIB]: what tests/wasm.mjs has for an answer
ask() { timeout --foreground "$limit" node "${engine[@]}" tests/wasm.mjs "$@"; }
engine=()

# narrow: what of an LLVM module as text could mean something else where addresses are narrower, a line each
narrow() { LC_ALL=C awk -f tests/width.awk; }

module=target/wasm/kiosk.wasm small=$room/small.wasm small_kib=128
if [ -n "${PROGRAMS:-}" ]; then
  module=$programs/kiosk.wasm small=$module
else
  means 7
  tools/wasm kiosk > /dev/null
  tried $? 'the module is made'
  tools/wasm kiosk $small_kib "$small" > /dev/null
  tried $? "and one on a stack of $small_kib KiB"
  "$tools/bin/clang" --no-default-config --target=x86_64-unknown-linux-gnu -x ir target/module/kiosk/module.bc -S -emit-llvm -Xclang -disable-llvm-passes \
    -o "$room/module.ll" && grep -q '^define .*@nickelgrove_step(' "$room/module.ll" && narrow < "$room/module.ll" > "$room/narrow" && [ ! -s "$room/narrow" ]
  tried $? 'nothing in what it is compiled from depends on how wide an address is' || cat "$room/narrow"
  [ "$(printf '  %%r0 = %s\n' 'alloca ptr, align 8' 'ptrtoint ptr %r1 to i64' 'getelementptr ptr, ptr %r1, i64 1' 'load i64, ptr %r0, align 8' | narrow | wc -l)" -eq 3 ]
  tried $? 'and where something does, it is found'

  # a checkout of one crate, whose one function is to give a number and gives one
  checkout=$room/checkout one=$room/checkout/target/wasm/one.wasm
  mkdir -p "$checkout/crates/one/src" && cp -r tools "$checkout" && echo 'one staticlib:' > "$checkout/crates.txt" || exit 2
  one() { # SAID GIVEN
    printf '%s\n' '#![tactic(auto)]' 'ghost use Rattle.std.specs.Prelude.{◌≡◌};' '#[unsafe(no_mangle)]' 'pub extern "C" fn one() -> usize' "    ensures { result ≡ $1 }" "{ $2 }" \
      > "$checkout/crates/one/src/lib.rt"
    "$checkout/tools/wasm" one > "$room/log" 2>&1
  }
  one 1 1 && mv "$one" "$room/one.wasm"
  tried $? 'a crate that is proved has a module' || cat "$room/log"
  ! one 1 2 && [ ! -e "$one" ] && grep -q 'one is not proved' "$room/log"
  tried $? 'one that is not proved, after a change, has none' || cat "$room/log"
  one 2 2 && ! cmp -s "$one" "$room/one.wasm"
  tried $? 'proved again it has another module' || cat "$room/log"
fi

command -v node > /dev/null || { echo 'skipped: there is no node here, and the module was not run'; finished $meant; }

means 11
writes 'the long sessions' recorded/long.out ask answers "$module" < recorded/long.in
# up to the first line that asks to tidy, which the counter doesn't know
sed '/^1b/,$d' recorded/sessions.in > "$room/counters"
cut -d ' ' -f 1,8 recorded/sessions.out | head -n "$(wc -l < "$room/counters")" > "$room/cuts"
writes 'the short sessions, each line with its list of saw cuts' "$room/cuts" ask cuts "$module" < "$room/counters"
writes 'the long sessions, at the desk' recorded/long.out ask desk "$module" < recorded/long.in
writes 'the long sessions that tidy, at the desk' recorded/tidy.out ask desk "$module" < recorded/tidy.in
writes 'the short sessions, with all that inspect shows, asked of the desk' recorded/sessions.out ask inspect "$module" < recorded/sessions.in
echo alike > "$room/alike"
writes 'why not, beside the offers of the short sessions' "$room/alike" ask reasons "$module" < recorded/sessions.in
for call in step desk; do yes ff0ef3 | head -n 6; echo 'refused: the line is too long for the memory'; echo 0701f8; done > "$room/odd"
writes 'lines that are no frames, and a report behind them, at the counter and at the desk' "$room/odd" ask odd "$module"

{ sed -n 's/^[a-z0-9_]* \(nickelgrove_[a-z_]*\)(.*/export function \1/p' kiosk/nickelgrove.h; echo 'export memory memory'; echo 'export global __heap_base'; } |
  LC_ALL=C sort > "$room/calls"
writes "it imports nothing, and exports nickelgrove.h's calls and its memory" "$room/calls" ask calls "$module"

used=$(cat recorded/long.in recorded/tidy.in | ask stack "$module" $kib) && [ "$used" -gt 0 ] && [ "$used" -le $((kib / 2)) ]
tried $? "chains to level 253, tidied among others, take ${used:-no} KiB of its stack, which has $kib"
printf '%s\n' 'stopped' 'nothing written over' 'refused: this counter was stopped in a call: open another one' > "$room/stopped"
writes "on a stack of $small_kib KiB the engine stops it, and nothing is written over" "$room/stopped" ask overflow "$small" $small_kib < recorded/long.in
engine=(--stack-size=256)
writes "the counter's own recorded run, long sessions and all, on 256 KiB of the engine's own stack" crates/counter/stdout ask answers "$module" < crates/counter/stdin
finished $meant
