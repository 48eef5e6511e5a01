# smartctl's table of page 11h's counters, as text or as JSON, in the lines of read_page; nothing if
# there is no table (tests/tools).

BEGIN {
  rows = split("001 002 003 004 005 006 007 008 009 00A 00B 00D 00F 010 012 013", row, " ")
  for (i = 1; i <= rows; i++) line["0" row[i]] = "absent"
}
function told(id, value, top) {
  if (id in line) line[id] = value (top ? " top" : "")
  else others++
}
/^ID +Size +Value/ || /"sata_phy_event_counters":/ { table = 1 }
/^0x[0-9a-f]+ / { top = sub(/[+]$/, "", $3); told(toupper(substr($1, 3)), $3, top) }
{ sub(/,$/, "") }
/"id":/ { id = sprintf("%04X", $2) }
/"value":/ { value = $2 }
/"overflow":/ { told(id, value, $2 == "true") }
END {
  if (!table) exit
  for (i = 1; i <= rows; i++) print row[i] "h " line["0" row[i]]
  print "others " others + 0
}
