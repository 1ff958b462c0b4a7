#!/usr/bin/env bash
# What the counter makes of lines that are no frames, and of the end of its input (document 01, "Counter frames"): each gets one answer, and the
# line after it its own.
set -u
cd "$(dirname "$0")/.." || exit 2
. tests/run.bash

# answers WHAT TEXT ANSWERS: to a text, and nothing else, both as printf reads them
answers() {
  printf "$2" > "$room/text"
  printf "$3" > "$room/answers"
  writes "$1" "$room/answers" run counter < "$room/text"
}

# a report before a sheet is opened is refused with 1; what is malformed comes before that
report='07f9\n' refused='0701f8\n' malformed='ff0ef3\n'

# gives WHAT TEXT ANSWERS: of a text, and with a report after it, both as printf reads them
gives() {
  answers "$1" "$2" "$3"
  answers "$1, and then a report" "$2$report" "$3$refused"
}

# digits COUNT: so many zeros
digits() { printf '%*s' "$1" '' | tr ' ' 0; }

answers 'empty input' '' ''
gives 'a frame' "$report" "$refused"
gives 'an empty line' '\n' "$malformed"
gives 'CR before the newline' '07f9\r\n' "$malformed"
gives 'NUL: alone, after, before and in a frame' '\x00\n07f9\x00\n\x0007f9\n07\x00f9\n' "$malformed$malformed$malformed$malformed"
gives 'upper case' '07F9\n' "$malformed"
gives 'bytes above 7f' '\x80\n\xff\xff\n07f\xb9\n07f9\xa0\n' "$malformed$malformed$malformed$malformed"
gives 'a byte-order mark' '\xef\xbb\xbf07f9\n' "$malformed"
for count in 0 1 63 64 65 66 4095 4096 4097 300000; do
  gives "a line of $count characters" "$(digits "$count")\n" "$malformed"
done
answers 'a last line without its newline' '07f9' "$malformed"
answers 'a frame, and a last line without its newline' '07f9\n07f9' "$refused$malformed"
answers 'CR is no newline' '07f9\r07f9' "$malformed"
answers 'a last line of 300000 characters without its newline' "$(digits 300000)" "$malformed"

# frames of five characters, newline and all, are cut by reads of any even size
many=$(printf '%*s' 3000 '')
answers '3000 frames at once' "${many// /$report}" "${many// /$refused}"

open=010001000000640000003c0103005a insert=03000101000000020007000000280000003c0000018d
answers "document 01's session" "$open\n$insert\n$insert\n" '010000010100000002fb\n030000010100000003000101000000030100010200000004eb\n0305f8\n'
finished 41
