#!/usr/bin/env bash
# What the papers cite is there: every path of README.md and of docs/ that is named below, every name of docs/READING.md as a definition in the file beside it, every
# must-fail edit where it is said to stand, every entry that is cited by its number, and the commands in the papers' blocks. tests/reading.awk reads the papers.
# And the recorded lists that stand in crates too are the same there, and the places that docs/DESIGN-PASS.md counts are as many as it says.
# A path is seen from the top, from crates/, or from the folder of a crate that is named beside it. Made by building and so not looked for: target/. CRATE, NAME and
# FOLDER stand for others. Outside docs/READING.md, which says in which list an edit stands, an edit may be named as CRATE/NAME.
# No stand-ins: it runs no program.
set -u
cd "$(dirname "$0")/.." || exit 2
. tests/run.bash
papers=(README.md docs/READING.md docs/DECISIONS.md docs/CHANGES.md docs/RULES.md docs/FRAMES.md docs/REFUSALS.md)
for paper in "${papers[@]}"; do
  rows=0
  [ "$paper" != docs/READING.md ] || rows=1
  awk -v rows=$rows -f tests/reading.awk "$paper"
done > "$room/cited"
for paper in docs/*.md; do
  [[ " ${papers[*]} " = *" $paper "* ]] || awk -f tests/reading.awk "$paper" | grep '^command'
done >> "$room/cited"

# definitions FILE: what a file defines, a name a line. Of antt that is what has a type: definitions, records and data with their fields and cases; of Rattle and Rust
# the items, and methods also with their type.
definitions() {
  awk '
    FILENAME ~ /\.antt$/ {
      from = 1
      while ($from == "abbrev" || $from == "unfoldable" || $from == "pub" || $from == "record" || $from == "data") from++
      if (from < NF && ($(from + 1) == ":" || from > 1 && $(from + 1) ~ /^[({]/)) print $from
      next
    }
    /^impl / { type = $2; sub(/<.*/, "", type) }
    /^}/ { type = "" }
    {
      for (i = 1; i < NF && i < 6; i++)
        if ($i ~ /^(fn|struct|enum|const|static|type|trait)$/) {
          name = $(i + 1)
          sub(/[^A-Za-z0-9_].*/, "", name)
          print name
          if (type != "" && $i == "fn") print type "::" name
          break
        }
    }' "$1"
}

edit_of() { compgen -G "edits/$1.edit" || compgen -G "crates/${1%/*}/must-fail/${1##*/}.edit"; } > /dev/null # CRATE/NAME

# found PATH CRATE...: whether it is there, also as a pattern
found() {
  local path=$1 crate
  case /$path/ in */target/* | */CRATE/* | */NAME/* | */FOLDER/*) return ;; esac
  shift
  for crate in . crates "${@/#/crates/}"; do
    compgen -G "$crate/$path" > /dev/null && return
  done
  return 1
}

# where FILE: the file of a name, from the top
where() { if [ -e "crates/$1" ]; then echo "crates/$1"; else echo "$1"; fi; }

declare -A defined # the names of each file that was asked for, with a newline on both sides of each
defines() { # FILE NAME
  [ -e "$1" ] || return
  [ -n "${defined[$1]+read}" ] || defined[$1]=$'\n'$(definitions "$1")$'\n'
  [[ ${defined[$1]} = *$'\n'"$2"$'\n'* ]]
}

declare -A cited=() missing=()
while IFS=$'\t' read -r kind at what rest; do
  IFS=$'\t' read -r -a more <<< "$rest"
  wrong=
  case $kind in
    # what stands outside the repository may be missing
    path) [[ $what == ../* ]] || found "$what" "${more[@]}" || { [[ $at != docs/READING.md:* ]] && edit_of "$what"; } || wrong="no such path: $what" ;;
    name)
      wrong="$what is not defined in ${more[*]}"
      for file in "${more[@]}"; do
        if defines "$(where "$file")" "$what"; then wrong=; fi
      done
      ;;
    edit)
      case $what in
        edits/*) file=$what.edit ;;
        *) file=crates/$what.edit ;;
      esac
      [ -f "$file" ] || wrong="no such edit: $what ($file)"
      ;;
    entry) grep -q "^## ${more[0]}\. " "$what" || wrong="no entry ${more[0]} in $what" ;;
    unfound) wrong="no file is named for: $what" ;;
    command)
      case $what in
        bash) [ -f "${more[0]:-}" ] || wrong="no such script: ${more[0]:-}" ;;
        crates/*/out/* | target/native/*) [ -f "crates/$(basename "$what")/src/main.rt" ] || wrong="no such program: $what" ;;
        */*) [ -f "$what" ] && [ -x "$what" ] || wrong="no such command: $what" ;;
        # elsewhere a block may be what a command printed
        *) [[ $at != README.md:* ]] || command -v "$what" > /dev/null || wrong="no such command: $what" ;;
      esac
      ;;
  esac
  cited[$kind]=$((${cited[$kind]:-0} + 1))
  [ -z "$wrong" ] || { echo "  $at: $wrong"; missing[$kind]=$((${missing[$kind]:-0} + 1)); }
done < "$room/cited"

# at_least COUNT KIND WHAT: so many are cited, and all are there
at_least() {
  [ "${cited[$2]:-0}" -ge "$1" ] && [ "${missing[$2]:-0}" -eq 0 ]
  tried $? "$3: ${cited[$2]:-0} cited, ${missing[$2]:-0} missing"
}
at_least 400 path 'paths'
at_least 400 name 'names, in the files beside them'
at_least 100 edit 'must-fail edits, where they are said to stand'
at_least 20 entry 'decisions and differences, by their numbers'
at_least 0 unfound 'definitions and theorems without a file'
at_least 10 command 'commands'

# `rt ci` takes no links: what rt runs the programs on stands twice
apart=
for pair in sessions.in=inspect/stdin sessions.out=inspect/stdout offers.txt=replay_piece/data/offers.txt blocks.txt=replay_piece/data/blocks.txt; do
  cmp -s "recorded/${pair%=*}" "crates/${pair#*=}" || apart+=" ${pair%=*}"
done
[ -z "$apart" ]
tried $? "the recorded lists that crates have too are the same there${apart:+, but for$apart}"

# what docs/DESIGN-PASS.md says is left of each kind of place, and what is
awk -F' [|] ' '
  /^\| [1-7] / && !done {
    point = substr($1, 3, 1)
    n = split($2, parts, ", ")
    for (i = 1; i <= n; i++) {
      split(parts[i], word, " ")
      if (word[1] ~ /^`[a-z-]+`$/) { gsub(/`/, "", word[1]); m = split(parts[i], number, " "); if (number[m] > 0) print point " " word[1] ": " number[m] }
    }
  }
  /^## What it became/ { done = 1 }' docs/DESIGN-PASS.md | sort > "$room/left"
tools/design counts | grep -v '^0\| all: ' | sort > "$room/stands"
[ -s "$room/left" ] && diff "$room/left" "$room/stands" > "$room/differs"
tried $? "the places that docs/DESIGN-PASS.md counts: $(wc -l < "$room/left") kinds$(sed -n 's/^[<>]/, &/p' "$room/differs" 2> /dev/null | tr -d '\n')"
finished 8
