# How the tests run a program, and how they count what they tried. Sourced by them, from the repository's top, after `rt ci`, which leaves each program in
# its crate's out/, or `rt run` in the crate's folder. Programs are for x86-64.
# PROGRAMS names another folder of programs, which run as they are: target/native, or the stand-ins of tests/of_tests.sh.
# PATIENCE: how many seconds a test waits for an answer. LIMIT: how many a run may take; a program that is still there then has failed.
programs=${PROGRAMS:-} patience=${PATIENCE:-60} limit=${LIMIT:-900}
if [ -z "$programs" ]; then
  kit=$(cd "$(dirname "$(rt doc)")" && pwd -P) || exit 2
  tools=$kit/toolchain
fi

# A folder for a test's files, and a process that it leaves behind: both go when it ends.
room=$(mktemp -d) || exit 2
process=
trap '[ -z "$process" ] || kill "$process" 2> /dev/null; rm -rf "$room"' EXIT

# words_of NAME: the words that start the program, in `program`
words_of() {
  if [ -n "$programs" ]; then program=("$programs/$1"); else program=("crates/$1/out/$1"); fi
}

# The program within the limit: timeout's own status is 124 then, and else the program's.
run() { # NAME
  local program
  words_of "$1"
  timeout --foreground "$limit" "${program[@]}"
}

# The system puts the start of a stack at a place that it draws, within 8 KiB, unless it is told not to.
fixed=()
! setarch -R true 2> /dev/null || fixed=(setarch -R)

# run_on_stack KIB NAME: the same on a stack of so many KiB
run_on_stack() {
  local program
  words_of "$2"
  (ulimit -s "$1" && exec timeout --foreground "$limit" "${fixed[@]}" "${program[@]}")
}

# tried STATUS WHAT: a line for each thing that was tried; the status is handed on. The line goes to a file too, and counts from whatever subshell it comes:
# `finished` reads that file.
: > "$room/tried"
tried() {
  if [ "$1" -eq 0 ]; then echo "ok: $2"; else echo "FAILED: $2"; fi | tee -a "$room/tried"
  return "$1"
}

# writes WHAT ANSWERS COMMAND...: the command ends with status 0 and has written the bytes of the file ANSWERS, no more and no less. The command is `run` or
# `run_on_stack`, and what it reads is given to `writes`. After a run that had to be stopped there is no point in going on.
writes() {
  local what=$1 answers=$2 ended why
  shift 2
  "$@" > "$room/written"
  ended=$?
  case $ended in
    0) why=$(cmp "$room/written" "$answers" 2>&1) || why=${why:-other bytes} ;;
    124) why="no end within $limit s" ;;
    *) why="it ended with status $ended" ;;
  esac
  [ -z "$why" ]
  tried $? "$what${why:+: $why}"
  [ "$ended" -ne 124 ] || finished
}

# digest_of COMMAND...: the SHA-256 of what the command writes; the status is the command's
digest_of() {
  "$@" | sha256sum | cut -d ' ' -f 1
  return "${PIPESTATUS[0]}"
}

# recorded_digest NAME: the one that was recorded under this name, in a file: its path
recorded_digest() {
  sed -n "s/^\([0-9a-f]*\)  $1\$/\1/p" recorded/digests.txt > "$room/digest"
  echo "$room/digest"
}

# finished [COUNT]: ends the test, with 0 only if exactly so many things were tried and none failed. A count is at least 1; without one the test was given up.
finished() {
  local count failed
  count=$(wc -l < "$room/tried")
  failed=$(grep -c '^FAILED' "$room/tried")
  echo "$count tried, $failed failed${1:+, of $1 to be tried}"
  [ "$failed" -eq 0 ] && [ "$count" -gt 0 ] && [ "$count" -eq "${1:-0}" ]
  exit
}
