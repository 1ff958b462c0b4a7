#!/usr/bin/env bash
# What the programs make of reads and writes that fail or are not ready: nothing is lost, no line is answered that has not come, and a failure is
# said in one line on standard error. `dd` sets the flag O_NONBLOCK of an end of a pipe.
set -u
cd "$(dirname "$0")/.." || exit 2
. tests/run.bash
# how many seconds a pause is
pause=${QUIET:-1}

# went WHAT STATUS MESSAGE: the program ended with 0 and said this on standard error
went() {
  [ "$2" -eq 0 ] && cmp -s "$room/err" <(printf "$3")
  tried $? "$1"
}
# silent WHAT: it wrote no answer
silent() {
  [ ! -s "$room/out" ]
  tried $? "$1"
}
# wrote WHAT FILE: it wrote this, and nothing else
wrote() {
  cmp "$room/out" "$2"
  tried $? "$1"
}

# slowly: what can be read, a part at a time
slowly() { while sleep 0.1 && dd bs=8192 count=1 status=none > "$room/part" && [ -s "$room/part" ]; do cat "$room/part"; done; }

# some frames of the Rust's recorded sessions, and what each program makes of them
lines=40
head -n $lines recorded/sessions.in > "$room/in"
head -n $lines recorded/sessions.out > "$room/inspect"
cut -d ' ' -f 1 "$room/inspect" > "$room/counter"

cp "$room/counter" "$room/desk"

for name in counter desk inspect; do
  # counter and desk also answer the long sessions
  many=$room/in answers=$room/$name
  [ $name = inspect ] || many=recorded/long.in answers=recorded/long.out

  run $name < "$room/in" > /dev/full 2> "$room/err"
  went "$name, to a full device, says so" $? "$name: writing: No space left on device\n"
  run $name < . > "$room/out" 2> "$room/err"
  went "$name, from a folder, says so" $? "$name: reading: Is a directory\n"
  silent "$name, from a folder, answers nothing"
  run $name <&- > "$room/out" 2> "$room/err"
  went "$name, from a closed input, says so" $? "$name: reading: Bad file descriptor\n"
  silent "$name, from a closed input, answers nothing"

  # a read that fails after the part of a line: the end of this shell's own stack has eight zeros, and behind it nothing can be read
  top=$(sed -n 's/^[0-9a-f]*-\([0-9a-f]*\) .*\[stack\]$/\1/p' "/proc/$$/maps")
  exec 3< "/proc/$$/mem"
  dd bs=1 skip=$((0x$top - 8)) count=0 status=none <&3
  run $name <&3 > "$room/out" 2> "$room/err"
  went "$name, from an input that fails in a line, says so" $? "$name: reading: Input/output error\n"
  silent "$name, from an input that fails in a line, answers nothing"
  exec 3<&-

  # an input that has nothing to read for a while: before a line, in it and after it
  rm -f "$room/pipe" && mkfifo "$room/pipe" || exit 2
  (sleep "$pause"; head -c 10 "$room/in"; sleep "$pause"; tail -c +11 "$room/in"; sleep "$pause") > "$room/pipe" &
  exec 3< "$room/pipe"
  dd iflag=nonblock count=0 status=none <&3
  run $name <&3 > "$room/out" 2> "$room/err"
  went "$name waits for an input that pauses" $? ''
  wrote "$name answers what comes after the pause" "$room/$name"
  exec 3<&-
  wait

  # an output with no room for a while: the pipe is full of zeros at first, and its reader is slow
  exec 3<> "$room/pipe"
  dd oflag=nonblock count=0 status=none >&3
  head -c 1048576 /dev/zero >&3 2> /dev/null
  (exec 3>&-; sleep "$pause"; sleep "$pause"; slowly | tr -d '\0' > "$room/out") < "$room/pipe" &
  run $name < "$many" 2> "$room/err" >&3
  went "$name waits for a reader that is slow" $? ''
  exec 3>&-
  wait
  wrote "$name loses no answer to a reader that is slow" "$answers"

  # a reader that goes away, where the signal is ignored
  (trap '' PIPE; run $name < recorded/sessions.in 2> "$room/err"; echo $? > "$room/status") | head -n 1 > /dev/null
  went "$name ends quietly when nobody reads" "$(cat "$room/status")" ''
done
finished 36
