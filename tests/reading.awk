# What a paper cites, a line each, for tests/reading.sh: the kind, where it stands, and the rest with tabs between.
#   path WHERE PATH CRATE...       a file or a folder; the crates are those that stand beside it in backticks, in whose folder it may be
#   name WHERE NAME FILE...        something that is defined in one of these files
#   edit WHERE PATH                a must-fail edit, without its ending
#   entry WHERE PAPER NUMBER       a decision or a difference, by its number
#   unfound WHERE WORDS            a definition or a theorem that is named without a file
#   command WHERE WORD             the first word of a command in a block, with the second where the first is `bash`
# Paths and commands are read in every paper; names and edits where `rows` is 1, which is docs/READING.md, whose own words set out how they are cited.

function say(kind, what) { print kind "\t" FILENAME ":" begun "\t" what }

# A path with one pair of braces, as many.
function say_path(path,    before, after, parts, count, i) {
  sub(/[.,;:]+$/, "", path)
  if (path ~ /\{[^{}]*\}/) {
    match(path, /\{[^{}]*\}/)
    before = substr(path, 1, RSTART - 1)
    after = substr(path, RSTART + RLENGTH)
    count = split(substr(path, RSTART + 1, RLENGTH - 2), parts, ",")
    for (i = 1; i <= count; i++) say_path(before parts[i] after)
  } else say("path", path crates)
}

# What is in backticks in a text, each with the files.
function say_names(text, files) {
  while (match(text, /`[^`]+`/)) {
    say("name", substr(text, RSTART + 1, RLENGTH - 2) "\t" files)
    text = substr(text, RSTART + RLENGTH)
  }
}

# The text from the last D, T or code on, if a name follows; else nothing.
function marked(text,    found, at) {
  found = ""
  while (match(text, /(^|[ (])(D|T|code) `/)) {
    text = substr(text, RSTART)
    found = text
    text = substr(text, 4)
  }
  return found
}

# Names are cited as "D `a`, `b` (words): FILE"; without a D, T or code before them only those directly before the colon are.
function before_file(text, files,    last, from) {
  last = text
  while (match(last, /; /)) {
    from = substr(last, 1, RSTART - 1)
    if (from ~ /(^|[ (])(D|T) `/) say("unfound", from)
    last = substr(last, RSTART + 2)
  }
  if (last !~ /(: | of )$/) return
  if (marked(last) != "") say_names(marked(last), files)
  else if (match(last, /(`[^`]+`( \([^()]*\))?(, over |, with |, and |, | and | to ))*`[^`]+`( \([^()]*\))?(: | of )$/)) say_names(substr(last, RSTART), files)
}

# The edits of a text are said and taken out of it; a name alone after a comma stands in the folder of the one before.
function without_edits(text,    rest, folder, edit) {
  rest = ""
  while (match(text, /(edits\/[a-z_]+|[a-z_]+\/must-fail)\/[a-z0-9_]+/)) {
    rest = rest substr(text, 1, RSTART - 1)
    edit = substr(text, RSTART, RLENGTH)
    text = substr(text, RSTART + RLENGTH)
    folder = edit
    sub(/[^\/]*$/, "", folder)
    say("edit", edit)
    for (;;) {
      if (match(text, /^ \([^()]*\)/)) text = substr(text, RLENGTH + 1)
      if (!match(text, /^, [a-z0-9_]+([,;.| ]|$)/) || text ~ /^, [a-z0-9_]+ [^(|]/) break
      match(text, /^, [a-z0-9_]+/)
      say("edit", folder substr(text, 3, RLENGTH - 2))
      text = substr(text, RLENGTH + 1)
    }
  }
  return rest text
}

# In brackets a semicolon divides nothing.
function calm(text,    done, inside) {
  done = ""
  while (match(text, /\([^()]*\)/)) {
    inside = substr(text, RSTART, RLENGTH)
    gsub(/;/, ",", inside)
    done = done substr(text, 1, RSTART - 1) inside
    text = substr(text, RSTART + RLENGTH)
  }
  return done text
}

# A cell of a table, or a paragraph.
function cell(text,    before, file, files, folder) {
  text = calm(without_edits(text))
  while (match(text, /[a-z_]+\/(src|specs|proofs|tests)\/[A-Za-z0-9_\/{},]*\.(antt|rt|rs)/)) {
    before = substr(text, 1, RSTART - 1)
    file = files = substr(text, RSTART, RLENGTH)
    text = substr(text, RSTART + RLENGTH)
    folder = file
    sub(/[^\/]*$/, "", folder)
    while (match(text, /^, [A-Z][A-Za-z]*\.antt/)) {
      file = folder substr(text, 3, RLENGTH - 2)
      files = files "\t" file
      text = substr(text, RLENGTH + 1)
      say_path(file)
    }
    before_file(before, files)
  }
  if (text ~ /(^|[ (])(D|T) `/) say("unfound", text)
}

# The entries that a text cites by a word and numbers: "decisions 14, 31".
function say_entries(text, word, paper,    numbers, parts, count, i) {
  while (match(text, "(^|[ (])" word "s? [0-9]+((, | and )[0-9]+)*")) {
    numbers = substr(text, RSTART, RLENGTH)
    text = substr(text, RSTART + RLENGTH)
    gsub(/[^0-9]+/, " ", numbers)
    count = split(numbers, parts, " ")
    for (i = 1; i <= count; i++) say("entry", paper "\t" parts[i])
  }
}

# A paragraph or a row, whole.
function whole(text,    cells, count, i, rest, path) {
  rest = text
  if (rows) {
    count = split(text, cells, / \| /)
    for (i = 1; i <= count; i++) cell(cells[i])
    gsub(/(edits\/[a-z_]+|[a-z_]+\/must-fail)\/[a-z0-9_]+/, "", rest)
  }
  say_entries(rest, "decision", "docs/DECISIONS.md")
  say_entries(rest, "difference", "docs/DIFFERENCES.md")
  crates = ""
  text = rest
  while (match(text, /`[a-z_]+`/)) {
    crates = crates "\t" substr(text, RSTART + 1, RLENGTH - 2)
    text = substr(text, RSTART + RLENGTH)
  }
  while (match(rest, /[A-Za-z0-9_.*{},-]+(\/[A-Za-z0-9_.*{},-]+)+/)) {
    path = substr(rest, RSTART, RLENGTH)
    rest = substr(rest, RSTART + RLENGTH)
    say_path(path)
  }
}

function flush() {
  if (paragraph != "") whole(paragraph)
  paragraph = ""
}

# The commands of a line in a block.
function commands(line,    parts, count, i, words) {
  begun = FNR
  sub(/ # .*/, "", line)
  count = split(line, parts, /&&|\|/)
  for (i = 1; i <= count; i++) {
    split(parts[i], words, " ")
    say("command", words[1] (words[1] == "bash" ? "\t" words[2] : ""))
  }
}

# a block that is fenced as text or as Rust holds no commands
/^```/ { flush(); fenced = !fenced; plain = fenced && ($0 == "```text" || $0 == "```rust"); next }
fenced && plain { next }
fenced || (/^    / && paragraph == "") { commands($0); next }
/^[ \t]*$/ || /^#/ { flush(); begun = FNR; if (/^#/) whole($0); next }
/^\|/ { flush(); begun = FNR; whole($0); next }
{
  if (paragraph == "") begun = FNR
  paragraph = paragraph " " $0
}
END { flush() }
