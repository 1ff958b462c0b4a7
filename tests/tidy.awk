# What the desk is asked to tidy over the Rust's recorded sessions, and what it has to answer:
# awk -v sent=FILE -v said=FILE -f tests/tidy.awk sessions.in sessions.out
# What tidying leaves is worked out here from the tree snapshot that the line of `inspect` has (recorded/README.md), by a rule of this file's own, which takes
# nothing out one by one: each structure but the top with no part inside goes; its length, and what was eaten behind it, is with the free piece at the end of
# its row.
# A state of a session is made anew from its opening on, by the lines that changed something. Then come tidying, the tree snapshot, the part numbers, which are
# as they were, the eaten area, and tidying once more, which finds nothing; and if a sheet was kept, a restore with its tree. States are taken where a line was
# carried out that may change the sheet or what is kept: each that is untidy, and of the others each twentieth.
BEGIN {
  for (i = 0; i < 256; i++) byte[sprintf("%02x", i)] = i
}
# the frame of these digits, with its check
function framed(digits, sum, i) {
  sum = 0
  for (i = 1; i <= length(digits); i += 2) sum += byte[substr(digits, i, 2)]
  return digits sprintf("%02x", (256 - sum % 256) % 256)
}
function give(line, answer) {
  print line > sent
  print answer > said
}
# a number of so many bytes, from digits and as digits; it is below 2^53
function number(digits, sum, i) {
  sum = 0
  for (i = 1; i <= length(digits); i += 2) sum = 256 * sum + byte[substr(digits, i, 2)]
  return sum
}
function digits(sum, bytes, text) {
  for (text = ""; bytes > 0; bytes--) { text = sprintf("%02x", sum % 256) text; sum = int(sum / 256) }
  return text
}
# the nodes of a snapshot, counted from 1: level, kind, cut, part number, width, height, what was eaten behind it; and the last node that is below each
function nodes_of(text, i, j, node) {
  nodes = length(text) / 28
  for (i = 1; i <= nodes; i++) {
    node = substr(text, 28 * i - 27, 28)
    level[i] = byte[substr(node, 1, 2)]
    kind[i] = byte[substr(node, 3, 2)]
    cut[i] = byte[substr(node, 5, 2)]
    part[i] = substr(node, 7, 4)
    width[i] = number(substr(node, 11, 8))
    height[i] = number(substr(node, 19, 8))
    eaten[i] = byte[substr(node, 27, 2)]
  }
  for (i = nodes; i > 0; i--) {
    for (j = i; j < nodes && level[j + 1] > level[i]; j++);
    end[i] = j
  }
}
# whether a node is a structure with no part inside
function empty(i, j) {
  if (kind[i] != 2) return 0
  for (j = i + 1; j <= end[i]; j++) if (kind[j] == 1) return 0
  return 1
}
function node_text(i) {
  return sprintf("%02x%02x%02x", level[i], kind[i], cut[i]) part[i] digits(width[i], 4) digits(height[i], 4) sprintf("%02x", eaten[i])
}
# the children of a node, tidied, with all below them; `area` gets what is eaten behind each of those that stay
function row(parent, i, text, board, breadth, at) {
  text = ""
  board = breadth = at = 0
  for (i = parent + 1; i <= end[parent]; i = end[i] + 1) {
    if (kind[i] == 0 || empty(i)) {
      at = i
      board += (cut[parent] ? width[i] : height[i]) + eaten[i]
      breadth = cut[parent] ? height[i] : width[i]
    } else {
      area += eaten[i] * (cut[parent] ? height[i] : width[i])
      text = text node_text(i) row(i)
    }
  }
  if (!at) return text
  return text sprintf("%02x00%02x0000", level[at], cut[at]) digits(cut[parent] ? board : breadth, 4) digits(cut[parent] ? breadth : board, 4) "00"
}
# the state behind a line, tidied
function tidied(numbers, count, tree, i) {
  for (i = 1; i <= made; i++) give(change[i], answered[i])
  count = 0
  for (i = 2; i <= nodes; i++) count += empty(i)
  area = 0
  tree = node_text(1) row(1)
  give(framed("1b"), framed("1b00" sprintf("%04x", count)))
  give(framed("17"), framed("1700" sprintf("%04x", length(tree) / 28) tree))
  give(framed("15"), framed("1500" sprintf("%04x", length(numbers) / 4) numbers))
  give(framed("19"), framed("1900" digits(area, 8)))
  give(framed("1b"), framed("1b000000"))
  if (kept == "") return
  give(framed("06"), framed("0600"))
  give(framed("17"), framed("1700" sprintf("%04x", length(kept) / 28) kept))
}
FNR == NR { frame[FNR] = $0; next }
substr($1, 1, 2) !~ /^(0[13456]|1b)$/ || substr($1, 3, 2) != "00" { next }
{
  op = substr($1, 1, 2)
  if (op == "01") { made = 0; kept = ""; whole = 1 }
  if (op == "05") kept = $2
  # what was kept before this opening is not made anew
  if (op == "06" && kept == "") whole = 0
  if (!whole) next
  change[++made] = frame[FNR]
  answered[made] = $1
  nodes_of($2)
  untidy = 0
  for (i = 2; i <= nodes; i++) untidy += empty(i)
  if (untidy > 0 || ++tidy % 20 == 0) tidied($6 == "-" ? "" : $6)
}
