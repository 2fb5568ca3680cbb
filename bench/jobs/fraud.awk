# The report of examples/fraud over merged rows.
$2 == "payment" { total += $3; count++; if ($3 * count_before > 3 * total_before) print $1 ",payment,suspect " $3; next }
$2 == "window" { print $1 ",window," (count + 0) " payments of " (total + 0); total_before = total; count_before = count; total = count = 0 }
