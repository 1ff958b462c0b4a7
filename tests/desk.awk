# What the desk is asked over the Rust's recorded sessions, and what it has to answer: awk -v sent=FILE -v said=FILE -f tests/desk.awk sessions.in sessions.out
# Each line of sessions.in goes to the desk with its answer; then come the questions whose answers the line of `inspect` has (recorded/README.md): each
# position of both lists and the one past the end, part numbers, figures, tree snapshot, saw cuts, eaten area, amounts of the cuts, and the room light of an
# offers or insert frame. Of the reasons `inspect` has none: an offers frame is asked as why not too, whose refusals are the same, and which says that a rotation is offered (05) exactly
# where the Rust has an offer in it; the other reasons are left open as dots.
BEGIN {
  for (i = 0; i < 256; i++) byte[sprintf("%02x", i)] = i
}
# the frame of these digits, with its check
function framed(digits, sum, i) {
  sum = 0
  for (i = 1; i <= length(digits); i += 2) sum += byte[substr(digits, i, 2)]
  return digits sprintf("%02x", (256 - sum % 256) % 256)
}
function give(line, answer) {
  print line > sent
  print answer > said
}
# the question of an op without fields: refused with 1 where there is no sheet, and else answered with these digits
function bare(op, open, digits) { give(framed(op), framed(op (open ? "00" digits : "01"))) }
# each position of a list of marks
function positions(op, open, marks, i, count) {
  count = open ? length(marks) / 14 : 0
  for (i = 0; i < count; i++) give(framed(op sprintf("%04x", i)), framed(op "00" substr(marks, 14 * i + 1, 14)))
  give(framed(op sprintf("%04x", count)), framed(op (open ? "0c" : "01")))
}
# the reason of a rotation, from the offers of an answer: 05 where one of them has it, and left open where none has
function reason(offers, rotation, i) {
  for (i = 1; i <= length(offers); i += 4) if (substr(offers, i, 2) == rotation) return "05"
  return ".."
}
# why not, from an offers frame and its answer: the check is open too where a reason is
function why(line, answer, offers, reasons) {
  line = framed("11" substr(line, 3, 36))
  if (substr(answer, 3, 2) != "00") give(line, framed("11" substr(answer, 3, 2)))
  else {
    offers = substr(answer, 7, length(answer) - 8)
    reasons = reason(offers, "00") reason(offers, "01")
    give(line, reasons == "0505" ? framed("1100" reasons) : "1100" reasons "..")
  }
}
# the light, for the part in a frame
function light(part, field) { give(framed("12" part), framed("12" field)) }
FNR == NR { frame[FNR] = $0; next }
{
  line = frame[FNR]
  open = $2 != "-"
  nodes = length($2) / 28
  give(line, $1)
  positions("13", open, $3 == "-" ? "" : $3)
  positions("14", open, $4 == "-" ? "" : $4)
  numbers = $6 == "-" ? "" : $6
  bare("15", open, sprintf("%04x", length(numbers) / 4) numbers)
  bare("16", open, substr($5, 1, 32) sprintf("%04x", nodes) "00" substr($5, 33, 32))
  bare("17", open, sprintf("%04x", nodes) $2)
  cuts = $8 == "-" ? "" : $8
  bare("18", open, sprintf("%04x", length(cuts) / 18) cuts)
  bare("19", open, substr($5, 65))
  amounts = $9 == "-" ? "" : $9
  bare("1a", open, sprintf("%04x", length(amounts) / 2) amounts)
  op = substr(line, 1, 2)
  if ($7 != "-") light(substr(line, 17, 22), $7)
  if (op == "02" && substr($1, 1, 2) == "02") why(line, $1)
}
