#!/usr/bin/env bash
# Programs on small stacks: they write what they write on any other. tests/stack.sh [PROGRAM...]
# On 256 KiB: deep_chain holds the deepest sound tree, takes it out, and tidies its 253 structures. On 2 MiB, which is what a thread of the kiosk's Rust has:
# long.in has chains to level 253, the deepest that calls can make. They are made, reported, taken out and restored by `counter`, and `inspect` also writes each
# tree, its lists and its figures. tidy.in has such chains that are tidied, by `desk` and by `inspect`.
# A removal needs the same stack whatever it takes out (document 02, request 6): on the least one, to a KiB, on which `counter` takes one part out of a comb, it
# takes the whole comb out, and the deepest chain (tests/deep.awk). So does a tidying (request 5): on the least one on which `desk` tidies one structure, it
# tidies the deepest chain. Built by tools/native, as the branch terminals have them, `counter` does all three on 256 KiB, and `desk` and `inspect` take
# tidy.in there.
set -u
cd "$(dirname "$0")/.." || exit 2
. tests/run.bash
kib=2048 meant=0

# deep TREE WHAT [SIZE]: the lines that make the tree, with so many structures, and take that out of it, and their answers, as files: $room/TREE-WHAT.in and
# .out, with the size behind WHAT if it is given
deep() {
  local name=$room/$1-$2${3:-}
  awk -v tree="$1" -v goes="$2" -v size="${3:-}" -v side=sent -f tests/deep.awk > "$name.in"
  awk -v tree="$1" -v goes="$2" -v size="${3:-}" -v side=answered -f tests/deep.awk > "$name.out"
}

# takes_out_on KIB PROGRAM FILES: whether it does so there
takes_out_on() {
  run_on_stack "$1" "$2" < "$room/$3.in" > "$room/taken" 2> /dev/null && cmp -s "$room/taken" "$room/$3.out"
}

# least PROGRAM FILES: the least stack, in KiB, on which it does
least() {
  local low=0 high=$kib middle
  while [ $((high - low)) -gt 1 ]; do
    middle=$(((low + high) / 2))
    if takes_out_on $middle "$1" "$2" 2> /dev/null; then high=$middle; else low=$middle; fi
  done
  [ ${#fixed[@]} -gt 0 ] || high=$((high + 8))
  echo $high
}

same_stack() {
  deep comb last && deep comb all && deep chain all
  writes 'counter takes a part out of a comb, on a stack of 2 MiB' "$room/comb-last.out" run_on_stack $kib counter < "$room/comb-last.in"
  tail -n 1 "$room/tried" | grep -q '^ok' || return
  local part
  part=$(least counter comb-last)
  writes "counter takes the comb out on $part KiB, the least on which it takes the part out" "$room/comb-all.out" run_on_stack "$part" counter < "$room/comb-all.in"
  writes "and the deepest chain on $part KiB" "$room/chain-all.out" run_on_stack "$part" counter < "$room/chain-all.in"
}

# A tidying goes from structure to structure with no call inside a call: what it takes out doesn't count.
same_stack_tidying() {
  deep chain tidy 1 && deep chain tidy
  writes 'desk tidies one structure, on a stack of 2 MiB' "$room/chain-tidy1.out" run_on_stack $kib desk < "$room/chain-tidy1.in"
  tail -n 1 "$room/tried" | grep -q '^ok' || return
  local one
  one=$(least desk chain-tidy1)
  writes "desk tidies the deepest chain on $one KiB, the least on which it tidies one structure" "$room/chain-tidy.out" \
    run_on_stack "$one" desk < "$room/chain-tidy.in"
}

# on_terminal NAME: the program for this machine, or a stand-in, on a stack of 256 KiB
on_terminal() {
  local native=target/native/$1
  if [ -n "${PROGRAMS:-}" ]; then native=$programs/$1; else tools/native "$1" < /dev/null > "$room/made" 2>&1 || cat "$room/made" >&2; fi
  (ulimit -s 256 && exec timeout --foreground "$limit" "$native")
}

on_terminals() {
  writes 'for this machine it takes a part out on a quarter of a MiB' "$room/comb-last.out" on_terminal counter < "$room/comb-last.in"
  writes 'and the comb' "$room/comb-all.out" on_terminal counter < "$room/comb-all.in"
  writes 'and the deepest chain' "$room/chain-all.out" on_terminal counter < "$room/chain-all.in"
}

[ $# -gt 0 ] || set -- deep_chain counter desk inspect
for name; do
  meant=$((meant + 1))
  case $name in
    deep_chain) writes 'deep_chain on a stack of 256 KiB' crates/deep_chain/stdout run_on_stack 256 deep_chain < /dev/null ;;
    counter)
      meant=$((meant + 6))
      writes 'counter, with chains to level 253, on a stack of 2 MiB' recorded/long.out run_on_stack $kib counter < recorded/long.in
      same_stack
      on_terminals
      ;;
    desk)
      meant=$((meant + 3))
      writes 'desk, with chains to level 253 that are tidied, on a stack of 2 MiB' recorded/tidy.out run_on_stack $kib desk < recorded/tidy.in
      same_stack_tidying
      writes 'for this machine it tidies them on a quarter of a MiB' recorded/tidy.out on_terminal desk < recorded/tidy.in
      ;;
    inspect)
      meant=$((meant + 2))
      writes 'inspect, with chains to level 253, on a stack of 2 MiB' "$(recorded_digest 'inspect on long.in')" \
        digest_of run_on_stack $kib inspect < recorded/long.in
      writes 'inspect, with such chains that are tidied' "$(recorded_digest 'inspect on tidy.in')" digest_of run_on_stack $kib inspect < recorded/tidy.in
      writes 'and for this machine on a quarter of a MiB' "$(recorded_digest 'inspect on tidy.in')" digest_of on_terminal inspect < recorded/tidy.in
      ;;
    *) tried 1 "no such program on a small stack: $name" ;;
  esac
done
finished $meant
