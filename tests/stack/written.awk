# written.awk: the functions and calls of a module, from its LLVM text. LLVM's intrinsics are no calls.
# Lines out, with tabs between the words: function NAME; call CALLER CALLEE BYTES; wrong MESSAGE.
BEGIN { OFS = "\t"; name = "(\"[^\"]*\"|[-A-Za-z0-9$._]+)[(]" }

# What `match` has found in a text: a name between a sign, @ or %, and a parenthesis.
function found(text) { text = substr(text, RSTART + 1, RLENGTH - 2); gsub(/"/, "", text); return text }

/^define / {
    inside = match($0, "@" name) ? found($0) : ""
    if (inside != "") print "function", inside
    else print "wrong", "a function without a name: " $0
}
/^}/ { inside = "" }
inside != "" && /^ / && match($0, / (call|invoke|callbr) /) {
    rest = substr($0, RSTART + RLENGTH)
    if (rest ~ /(^| )asm /) print "wrong", inside " has assembly, whose calls are not seen: " $0
    else if (!match(rest, "[@%]" name) || substr(rest, RSTART, 1) == "%") print "wrong", inside " makes an indirect call: " $0
    else if (substr(rest, RSTART + 1, 5) != "llvm.") print "call", inside, found(rest), 0
}
