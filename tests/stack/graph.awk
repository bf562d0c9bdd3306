# graph.awk: of the lines that written.awk or machine.awk give, the cycles and, for each exported function, the deepest chain of calls.
# WHERE says in messages where the calls stand. Lines out: functions COUNT; sum NAME BYTES and, below it, link NAME BYTES along its chain.
# Ends with 1, and with messages in place of sums, where a cycle or anything else is wrong.
BEGIN { FS = OFS = "\t"; split("memcpy memset memmove", words, " "); for (i in words) imported[words[i]] = 1; ADDRESS = 8 }
function wrong(text) { print "stack: " where ": " text; bad = 1 }

$1 == "wrong" { wrong($2) }
$1 == "function" { all[++functions] = $2; here[$2] = 1 }
$1 == "own" { deepest[$2] = held[$2] = $3 }
$1 == "export" { exported[++exports] = $2 }
$1 == "call" { n = ++calls[$2]; callee[$2, n] = $3; bytes[$2, n] = $4 }

END {
    for (i = 1; i <= functions; i++) if (!(all[i] in state)) visit(all[i])
    if (functions == 0) wrong("there is no function")
    for (i = 1; i <= exports; i++) if (!(exported[i] in here)) wrong(exported[i] " is exported and is no function of the module")
    if (bad) exit 1
    print "functions", functions
    for (i = 1; i <= exports; i++) {
        print "sum", exported[i], deepest[exported[i]]
        for (f = exported[i]; f != ""; f = after[f]) print "link", f, held[f]
    }
}

# Goes along all calls from f. `way` has the functions from the first one to f; a call to one of them closes a cycle.
function visit(f,   i, g, all_bytes) {
    state[f] = "open"
    way[++length_of_way] = f
    for (i = 1; i <= calls[f]; i++) {
        g = callee[f, i]
        if (seen[f, g]++ == 0) {
            if (g in imported && !(g in here)) deepest[g] = held[g] = ADDRESS
            else if (!(g in here)) wrong(f " calls " g ", which is no function of the module")
            else if (!(g in state)) visit(g)
            else if (state[g] == "open") wrong("recursion: " cycle(g))
        }
        all_bytes = bytes[f, i] + deepest[g]
        if (all_bytes > deepest[f]) { deepest[f] = all_bytes; held[f] = bytes[f, i]; after[f] = g }
    }
    state[f] = "done"
    length_of_way--
}

function cycle(g,   i, text) {
    for (i = length_of_way; way[i] != g; i--) text = " > " way[i] text
    return g text " > " g
}
