# Of an LLVM module as text, the instructions whose meaning could depend on how wide an address is (docs/DECISIONS.md has the reasons): an address that is made a
# number, or a number an address, or two that are compared; an offset that is not in bytes; a local that holds one address, and of which more is asked than to
# store one there whole and to load it again. Prints each with its line's number.
function told() { print NR ": " $0 }
/^define/ { split("", slots) }
/ = alloca ptr, / { slots[$1]; next }
# the address 0 is none at any width, and whether an address is that one is asked of a slice that is lent
/ icmp eq ptr %[a-z0-9]+, null$/ { next }
/ (ptrtoint|ptrtoaddr|inttoptr|addrspacecast) / || / icmp [a-z ]*ptr / { told(); next }
/ getelementptr / && !/ i8, ptr / { told(); next }
{
  for (i = 1; i <= NF; i++) {
    word = $i
    gsub(/[(),]/, "", word)
    if (word in slots && !($1 == "store" && $2 == "ptr" && i == 5) && !($3 == "load" && $4 == "ptr," && i == 6)) { told(); break }
  }
}
