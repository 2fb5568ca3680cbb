# The report of windows.head over merged rows.
$2 == "barrier" { print $1 ",barrier,total " (total + 0) " most " (count ? most : "none"); total = count = 0; next }
$2 { total += $3; if (!count++ || $3 + 0 > most) most = $3 + 0 }
