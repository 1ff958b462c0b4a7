#!/usr/bin/env bash
# Random bytes, so many that a tenth of them has lines: one answer a line, status 0, flat memory. tests/counter_random.sh [BYTES [SEED]]
# The most memory that the program has held (VmHWM in /proc) is read when it has answered the lines of a tenth of the input, and again when it has answered all
# whole lines, while it waits for more.
set -u
cd "$(dirname "$0")/.." || exit 2
. tests/run.bash
bytes=${1:-20000000} seed=${2:-8}

# the generator of Park and Miller, the highest eight of its 31 bits
LC_ALL=C awk -v n="$bytes" -v x="$seed" \
  'BEGIN { for (; n > 0; n--) { x = x * 16807 % 2147483647; printf "%c", int(x / 8388608) } }' > "$room/in"
[ "$(wc -c < "$room/in")" -eq "$bytes" ]
tried $? "$bytes bytes from the seed $seed"

newlines() { tr -cd '\n' | wc -c; }
tenth=$((bytes / 10))
early_lines=$(head -c $tenth "$room/in" | newlines)
whole_lines=$(newlines < "$room/in")
lines=$whole_lines
[ -z "$(tail -c 1 "$room/in" | tr '\0' 0)" ] || lines=$((lines + 1))

# answered COUNT: so many answers come while there is patience; after answers that don't come there is no point in going on
answered() {
  local end=$((SECONDS + patience))
  while [ "$(wc -l < "$room/out")" -lt "$1" ]; do
    if [ $SECONDS -ge $end ] || ! kill -0 "$process" 2> /dev/null; then
      tried 1 "$1 lines are answered while the input is open"
      finished
    fi
    sleep 0.1
  done
}

# the process is timeout's, and the program's own number is in the room
most() { sed -n 's/^VmHWM:[^0-9]*\([0-9]*\) kB/\1/p' "/proc/$(cat "$room/pid")/status"; }

mkfifo "$room/pipe" || exit 2
words_of counter
timeout --foreground "$limit" bash -c 'echo $$ > "$0" && exec "$@"' "$room/pid" "${program[@]}" < "$room/pipe" > "$room/out" &
process=$!
exec 3> "$room/pipe"
head -c $tenth "$room/in" >&3
answered "$early_lines"
early=$(most)
tail -c +$((tenth + 1)) "$room/in" >&3
answered "$whole_lines"
late=$(most)
exec 3>&-
wait "$process"
tried $? 'the counter ended with status 0'
process=

[ "$(wc -l < "$room/out")" -eq "$lines" ]
tried $? "one answer a line: $lines"
[ "$(sort -u "$room/out")" = ff0ef3 ]
tried $? 'each says that the line is malformed'
[ -n "$early" ] && [ -n "$late" ] && [ "$late" -le $((early + 256)) ]
tried $? "flat memory: at most $early kB after a tenth, $late kB after all"
finished 5
