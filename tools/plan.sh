#!/bin/sh
# Draws a plan: tools/plan.sh [--dot] [PLAN]
# Reads a plan's text from the file PLAN or from standard input, and writes its tree in characters, or with --dot a graph in the
# language of Graphviz. It is made for plans that `flumina valid` or `flumina plan` has written, and says little of others.
form=tree
if [ "${1-}" = --dot ]; then form=dot; shift; fi
exec awk -v form="$form" '
function trim(text) { gsub(/[ \t\r]+/, " ", text); sub(/^ /, "", text); sub(/ $/, "", text); return text }

# One node: its name, what it is responsible for, and its children.
function keep(text,    colon, arrow, names, head) {
    text = trim(text)
    if (text == "") return
    colon = index(text, ":")
    if (colon == 0) { fail("a node without a colon: " text); return }
    head = trim(substr(text, 1, colon - 1))
    text = substr(text, colon + 1)
    arrow = index(text, "->")
    if (arrow > 0) {
        if (split(trim(substr(text, arrow + 2)), names, " ") != 2) { fail("not two children: " head); return }
        left[head] = names[1]
        right[head] = names[2]
        text = substr(text, 1, arrow - 1)
    }
    text = trim(text)
    gsub(/ *, */, ", ", text)
    label[head] = text
    order[++count] = head
}

function fail(why) { print "plan.sh: " why > "/dev/stderr"; failed = 1 }

# A node after the lines that lead to it, and then all that is below it.
function draw(name, lead, branch, below,    shown) {
    if (drawn[name]++) { fail("twice in the tree: " name); return }
    shown = name ":"
    if (label[name] != "") shown = shown " " label[name]
    print lead branch shown
    if (name in left) {
        draw(left[name], lead below, "├── ", "│   ")
        draw(right[name], lead below, "└── ", "    ")
    }
}

function graph(    i, name, text) {
    print "digraph plan {"
    print "    node [shape=box];"
    for (i = 1; i <= count; i++) {
        name = order[i]
        text = label[name] == "" ? name : name "\\n" label[name]
        print "    \"" name "\" [label=\"" text "\"];"
        if (name in left) {
            print "    \"" name "\" -> \"" left[name] "\";"
            print "    \"" name "\" -> \"" right[name] "\";"
        }
    }
    print "}"
}

{ sub(/#.*/, ""); whole = whole " " $0 }

END {
    gsub(/\t|\r/, " ", whole)
    parts = split(whole, nodes, / node /)
    for (i = 2; i <= parts; i++) keep(nodes[i])
    if (count == 0) fail("no node")
    if (failed) exit 1
    if (form == "dot") graph(); else draw(order[1], "", "", "")
    exit failed
}' "$@"
