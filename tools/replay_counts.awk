# What crates/replay writes, from the lists alone: run it in crates/replay/data on the names in crates/replay/args. Of a list that starts with
# `# differs: TEXT` that is TEXT, of any other how many lines there are of each kind.

BEGIN { split("push packet wake report take rules known number > = woke unseen", kinds) }

# the counts; behind the calls stands what is told of them
function counted(    i, text) {
  for (i = 1; i <= 12; i++) text = text sprintf("%s %s %d", i == 1 ? "" : i == 8 ? ";" : ",", kinds[i], counts[kinds[i]])
  return text
}

# the line of a list
function line() {
  print list ":" (differs == "" ? counted() : " " differs)
  if (differs != "") different++
  delete counts
}

FNR == 1 {
  if (lists++) line()
  list = FILENAME
  differs = sub(/^# differs: /, "") ? $0 : ""
}

{ counts[$0 == "woke unseen" ? "unseen" : $1]++ }

END {
  line()
  printf "%d lists replayed, %d with a difference\n", lists, different
}
