# awk -v bridges=FILE.ll -f tools/wrappers.awk DECLARED MODULE.ll: the exported calls as a C file, for a compiler of any 32-bit core.
# DECLARED is what tools/header.awk makes of the header, and MODULE.ll is the library's module as text.
#
# In the module each exported call, kv_sha256, has the C convention of x86-64 and does nothing but call its body, "ketvaulo::kv_sha256". A
# body takes everything by one simple convention: a struct by a pointer; a slice by a pointer that is never NULL, and its length as 64 bits;
# any other value as it is. A struct of two numbers it returns as these two; for any other struct that it returns, a pointer comes first.
# FILE.ll gets a bridge to each body, in the module's own language: a function by which both kinds of structs are written through a pointer. The
# C file defines each call of the header over the declaration of its bridge, and the C compiler brings the convention of its core.
#
# Stops with status 1 where the module's calls are not the header's, or where a body takes other types than the header's call asks for.

function stop(text) { print "tools/wrappers.awk: " text >"/dev/stderr"; bad = 1; exit 1 }

# the LLVM type of a C type that is no struct
function width(type) {
    if (type == "uint8_t") return "i8"
    if (type == "uint16_t") return "i16"
    if (type == "uint32_t") return "i32"
    if (type == "uint64_t" || type == "size_t") return "i64"
    stop("the header has a value of type " type)
}

# the C type of an LLVM type
function c_type(type) { return "uint" substr(type, 2) "_t" }

# 'ptr noundef %a0, i16 noundef %a2' as 'ptr i16'
function types(list,    n, parts, i, line) {
    n = split(list, parts, ", ")
    for (i = 1; i <= n; i++) { sub(/ .*/, "", parts[i]); line = line (i > 1 ? " " : "") parts[i] }
    return line
}

# 'uint32_t refusal; uint64_t value;' as '{ i32, i64 }': the LLVM type of a struct of two numbers, or nothing
function pair(fields,    words) {
    if (split(fields, words, /[ ;]+/) != 5 || fields ~ /\[/ || words[1] in struct || words[3] in struct) return ""
    return "{ " width(words[1]) ", " width(words[3]) " }"
}

# the bridge to a body: TYPES are those that it takes, RESULT is what the body returns
function bridge(call, callee, taken, result,    n, parts, i, head, list) {
    n = split(taken, parts, " ")
    for (i = 1; i <= n; i++) list = list (i > 1 ? ", " : "") parts[i] " %a" i
    head = "@bridge." call "(" (result ~ /^[{]/ ? "ptr %answer" (n ? ", " : "") : "") list ")"
    print "" >bridges
    if (result ~ /^[{]/) {
        print "define void " head " #0 {\n  %result = call " result " @\"" callee "\"(" list ")" >bridges
        print "  store " result " %result, ptr %answer\n  ret void\n}" >bridges
    } else if (result == "void") {
        print "define void " head " #0 {\n  call void @\"" callee "\"(" list ")\n  ret void\n}" >bridges
    } else print "define " result " " head " #0 {\n  %result = call " result " @\"" callee "\"(" list ")\n  ret " result " %result\n}" >bridges
}

function wrapper(call,    n, parts, i, type, name, params, asks, gives, takes, locals, args, callee, c) {
    callee = body[call]
    params = declared[call]
    n = split(params, parts, ", ")
    if (result[call] in struct) {
        c = gives = "void"
        takes = result[call] " *"; args = "&answer"
        locals = "    " result[call] " answer;\n"
        if (pair(struct[result[call]]) != "") gives = pair(struct[result[call]]); else asks = "ptr"
    } else { gives = width(result[call]); c = c_type(gives) }
    for (i = 1; i <= n; i++) {
        name = parts[i]
        sub(/.*[ *]/, "", name)
        type = parts[i]
        sub(/ *\*?[a-z0-9_]+$/, "", type)
        if (args != "") { args = args ", "; takes = takes ", " }
        if (asks != "") asks = asks " "
        if (parts[i] ~ /\*/) {
            if (parts[i + 1] != "size_t " name "_len") stop(call " has a pointer " name " without its length")
            args = args "slice(" name "), " name "_len"; asks = asks "ptr i64"; takes = takes "const void *, uint64_t"
            i++
        } else if (type in struct) {
            args = args "&" name; asks = asks "ptr"; takes = takes type " *"
        } else {
            args = args name; asks = asks width(type); takes = takes c_type(width(type))
        }
    }
    if (asks != taken[callee] || gives != returned[callee])
        stop(call ": the body takes " taken[callee] " and returns " returned[callee] ", and the header asks for " asks " and " gives)
    bridge(call, callee, asks, gives)
    printf "%s bridge_%s(%s) __asm__(\"bridge.%s\");\n", c, call, takes, call
    printf "%s %s(%s)\n{\n%s", result[call], call, params, locals
    if (c == "void") printf "    bridge_%s(%s);\n    return answer;\n}\n\n", call, args
    else printf "    return bridge_%s(%s);\n}\n\n", call, args
}

FNR == NR && $2 == "struct" { struct[$1] = $0; sub(/^[^ ]* struct /, "", struct[$1]); next }
FNR == NR && /\(/ {
    call[++calls] = $1
    result[$1] = $2
    declared[$1] = $0
    sub(/^[^(]*\(/, "", declared[$1])
    sub(/\)$/, "", declared[$1])
    next
}
FNR == NR { next }

# a function inside the module: its name, what it takes and what it returns
/^define internal / {
    name = $0
    sub(/^[^@]*@/, "", name)
    list = substr(name, index(name, "(") + 1)
    sub(/\(.*/, "", name)
    gsub(/"/, "", name)
    sub(/\).*/, "", list)
    taken[name] = types(list)
    type = $0
    sub(/ @.*/, "", type)
    if (type !~ /}$/) sub(/.* /, "", type)
    sub(/^[^{]*[{]/, "{", type)
    returned[name] = type
    next
}
# an exported call: the only function that it calls is its body
/^define / {
    exported = $0
    sub(/^[^@]*@/, "", exported)
    sub(/\(.*/, "", exported)
    if (!(exported in declared)) stop("the module exports " exported ", which the header does not declare")
    next
}
/^[}]/ { exported = "" }
exported != "" && / call / {
    name = $0
    sub(/^[^@]*@/, "", name)
    sub(/\(.*/, "", name)
    gsub(/"/, "", name)
    if (exported in body || name ~ /^llvm\./) stop(exported " does more than calling its body")
    body[exported] = name
}

END {
    if (bad) exit 1
    print "/* Made by tools/wrappers.awk. */\n#include <ketvaulo.h>\n"
    print "/* A body's slice is never at NULL: for a slice of no bytes at NULL the exported calls of the module give it this address. */"
    print "static const void *slice(const void *at) { return at ? at : (const void *)4096; }\n"
    for (i = 1; i <= calls; i++) {
        if (!(call[i] in body)) stop("the header declares " call[i] ", which the module does not export")
        wrapper(call[i])
    }
}
