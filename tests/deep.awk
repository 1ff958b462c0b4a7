# Deep trees, made and taken out by frames: what is sent to `counter` or `desk`, and what it must answer.
# awk -v tree=TREE -v goes=WHAT -v side=SIDE -f tests/deep.awk
# TREE: chain, 252 structures in one another, the most that calls can make; or comb, 126 structures in one another with a part in each. WHAT is taken out of
# it: all, the structure that holds all others; last, the last part that was booked; or, of a chain and at the desk, tidy, each structure by itself, the
# innermost first. SIDE: sent, or answered. With -v size=N it has N structures.
# Every mark is known beforehand: serials rise by one per node, and a node takes the lowest unheld place.
function two(n) { return sprintf("%02x%02x", n / 256, n % 256) }
function four(n) { return two(n / 65536) two(n % 65536) }
function mark(place, serial) { return sprintf("0001%02x", place) four(serial) }
function line(hex,   i, sum) {
  for (i = 1; i < length(hex); i += 2) sum += 16 * (index("0123456789abcdef", substr(hex, i, 1)) - 1) + index("0123456789abcdef", substr(hex, i + 1, 1)) - 1
  print hex sprintf("%02x", (256 - sum % 256) % 256)
}
function say(sent, answered) { line(side == "sent" ? sent : answered) }

# A part across the free piece, one wide: a structure takes the piece's place, with the part and the rest in it.
function book(number, place, serial, level) {
  part = level % 2 == 1 ? four(width) four(1) : four(1) four(height)
  say("03" mark(place, serial) two(number) part "01" "00" "02", \
    "0300" mark(place, last + 1) mark(place + 1, last + 2) "01" mark(place + 2, last + 3))
  last += 3
}

BEGIN {
  width = height = 1000
  if (!size) size = tree == "chain" ? 252 : 126
  say("010001" four(width) four(height) "01" "fe" "00", "0100" mark(1, 2))
  last = 2
  if (tree == "chain") {
    for (i = 1; i <= size; i++) {
      book(7, i, last, i)
      if (i < size || goes != "last") { say("04" mark(i + 1, last - 1), "0400" mark(i + 1, last + 1) "01" two(7)); last++ }
    }
    if (goes == "all") say("04" mark(1, 3), "0400" mark(1, last + 1) "00")
    else if (goes == "tidy") say("1b", "1b00" two(size))
    else say("04" mark(size + 1, last - 1), "0400" mark(size + 1, last + 1) "01" two(7))
  } else {
    for (i = 1; i <= size; i++) {
      book(i, 2 * i - 1, last, i)
      if (i % 2 == 1) height--
      else width--
      numbers = numbers two(i)
    }
    if (goes == "all") say("04" mark(1, 3), "0400" mark(1, last + 1) sprintf("%02x", size) numbers)
    else say("04" mark(2 * size, last - 1), "0400" mark(2 * size, last + 1) "01" two(size))
  }
}
