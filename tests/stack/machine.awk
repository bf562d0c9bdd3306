# machine.awk FILE.su FILE.s: the functions of a module, their calls and the stack that each takes, from what clang writes for x86-64.
# Lines out, with tabs between the words: function NAME; own NAME BYTES; call CALLER CALLEE BYTES; export NAME; wrong MESSAGE.
#
# BYTES are what a function holds of the stack, at a call or at most: its return address, the registers that it saves, its variables and
# the arguments that it pushes for a call. The .su file has registers and variables alone, so each change of %rsp is followed here.
# Whichever way leads to a place in a function, the stack is equally deep there; where the way followed says otherwise, that is wrong.
# A function that calls none may use the 128 bytes below the stack pointer, the ABI's red zone. They count where it names %rsp.
BEGIN { FS = OFS = "\t"; ADDRESS = 8; RED = 128 }
function bare(word) { gsub(/"/, "", word); sub(/@PLT$/, "", word); return word }
function wrong(text) { if (!said[name, text]++) print "wrong", name " " text }

FILENAME ~ /[.]su$/ {
    name = $1
    sub(/^[^:]*:/, "", name)
    frame[name] = $2
    if ($3 != "static") wrong("has a frame whose size varies: " $3)
    next
}
{ tail = /# TAILCALL/; sub(/[ \t]+# .*/, "") }
/^\t[.](globl|weak)\t/ { print "export", bare($3) }
/^\t[.]type\t.*,@function/ { sub(/,@function/, "", $3); named[++functions] = bare($3); first[functions] = size + 1 }
/^[.]Lfunc_end/ { last[functions] = size }
/^[.]LBB[0-9]+_[0-9]+:/ { label[++size] = substr($1, 1, length($1) - 1); owner[label[size]] = functions }
/^\t[a-z]/ { op[++size] = $2; arg[size] = $3; leaves[size] = tail }
/^\t[.](long|quad)\t[.]LBB/ { sub(/-.*/, "", $3); table[++entries] = $3 }   # a jump table's

END {
    for (k = 1; k <= functions; k++) {
        name = named[k]
        print "function", name
        do { before = places; follow(k, 0) } while (places > before)
        follow(k, 1)
        if (!(name in frame)) wrong("is in no .su file")
        else if (most < frame[name] + ADDRESS) wrong("holds " most - ADDRESS " bytes here and " frame[name] " in the .su file")
        print "own", name, most + (calls == 0 && names > 0 ? RED : 0)
        delete frame[name]
    }
    for (name in frame) wrong("is in the .su file and not in the assembly")
}

# Goes through a function's text once, with the depth `now`. A place that only later text leads to is known the next time.
function follow(k, final,   n, known) {
    now = most = ADDRESS
    calls = names = 0
    known = 1
    for (n = first[k]; n <= last[k]; n++) {
        if (n in label) {
            if (known) reach(label[n])
            known = label[n] in depth
            if (known) now = depth[label[n]]
        } else if (known) {
            known = step(op[n], arg[n], leaves[n], final)
            if (now > most) most = now
        } else if (final) wrong("has a place that nothing leads to, before: " op[n] " " arg[n])
    }
}

function reach(place) {
    if (!(place in depth)) { depth[place] = now; places++ }
    else if (depth[place] != now) wrong("holds " depth[place] " bytes or " now " at " place)
}

# One instruction: the depth after it. The answer is 0 where the next one is not reached from here.
function step(o, a, leaving, final,   i, found) {
    if (o == "pushq") now += 8
    else if (o == "popq" && a != "%rsp") now -= 8
    else if (o ~ /^(add|sub)q$/ && a ~ /^[$]-?[0-9]+, %rsp$/) now += (o == "subq" ? 1 : -1) * substr(a, 2)
    else if (o == "leaq" && a ~ /^-?[0-9]+[(]%rsp[)], %rsp$/) now -= a + 0
    else if (a ~ /(^|, )%[re]?spl?$/ && o !~ /^(cmp|test)/ || o ~ /^(push|pop[fwl]|enter|leave)/)
        wrong("moves the stack pointer in a way that is not followed here: " o " " a)
    else if (a ~ /%rsp/) names++
    if (o ~ /^call/) {
        calls++
        if (a ~ /^[*]/) wrong("makes an indirect call: " o " " a)
        else if (final) print "call", name, bare(a), now
    } else if (o ~ /^j/ && a ~ /^[.]L/) {
        reach(a)
    } else if (o ~ /^j/ && a ~ /^[*]/ && !leaving) {
        for (i = 1; i <= entries; i++) if (owner[table[i]] == k) { reach(table[i]); found = 1 }
        if (!found) wrong("jumps to a place that no table names: " o " " a)
    } else if (o ~ /^j/) {
        # A call as the last thing: the called function takes this one's place on the stack.
        if (a ~ /^[*]/) wrong("makes an indirect call: " o " " a)
        else if (now != ADDRESS) wrong("leaves with " now " bytes held: " o " " a)
        else if (final) print "call", name, bare(a), 0
    } else if (o ~ /^ret/ && (now != ADDRESS || a != "")) wrong("returns with " now " bytes held: " o " " a)
    return o !~ /^(jmp|ret|ud2)/
}
