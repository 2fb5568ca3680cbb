# The report of examples/views over merged rows, for up to ten pages; the lines of an hour are in another order.
{ kind = substr($2, 1, 1) }
kind == "v" { page = substr($2, 6, 1); views[page]++; if (page in fee) earned[page] += fee[page]; next }
kind == "u" { page = substr($2, 8, 1); print $1 "," $2 ",fee from " (page in fee ? fee[page] : "none") " to " $3 " cents"; fee[page] = $3; next }
kind == "h" {
    for (page in views) print $1 ",hour,page " page ": " views[page] " views"
    for (page in earned) if (earned[page]) print $1 ",hour,page " page ": " earned[page] " cents"
    split("", views); split("", earned)
}
