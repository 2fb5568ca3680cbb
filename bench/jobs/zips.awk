# The report of zips.head over merged rows; the lines of a tick are in another order.
{ kind = substr($2, 1, 1) }
kind == "v" { views[substr($2, 6)] += $3; next }
kind == "u" { print $1 "," $2 ",was " ($2 in zip ? zip[$2] : "none"); zip[$2] = $3; next }
kind == "t" {
    for (page in views) if (views[page]) print $1 ",tick,page " substr(page, 1, length(page) - 1) " views " views[page]
    split("", views)
}
