# Whether the reports of a run, a line for each worker, count the actions that its log tells of each, but for one that faults; and, where the
# log does not end by a fault, all turns of each, or fewer, where memory was refused to it, which is told behind the reports; and whether the lines of a component's
# entries add up to its report:
# awk -v turns=N -f counted.awk LOG REPORTS
FNR == NR && /"end":/ { faulted = /"end":"fault/; next }
FNR == NR { last = $0; sub(/.*"who":/, "", last); sub(/}.*/, "", last); performed[last]++; next }
FNR == 1 && faulted { performed[last]-- }
/^[A-Za-z0-9_]+: memory$/ { told++; next }
/^environment: .* was not performed$/ { next }
/^[A-Za-z0-9_]+: [A-Za-z0-9_]+: [0-9]+ tried, / {
  own[$1]++; idle[$1] += $5 + $8 + $11; stale[$1] += $14; committed[$1] += $16
  if ($3 != $5 + $8 + $11 + $14 + $16) miscounted = 1
  next
}
{ workers++; counted = $2 + $4 + $6; reported[$1] = $2 " " $4 " " $6 }
$2 != performed[FNR - 1] + 0 { miscounted = 1 }
/ stale, memory$/ { wanting++; if (counted >= turns) miscounted = 1; next }
!faulted && (counted != turns || !/ stale, turns done$/) { miscounted = 1 }
END {
  for (name in own) if (reported[name] != committed[name] " " idle[name] " " stale[name]) miscounted = 1
  exit miscounted || !workers || told != wanting
}
