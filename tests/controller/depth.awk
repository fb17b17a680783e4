# awk -v machine=x86|arm|riscv -f tests/controller/depth.awk FILE.su FILE.s: the deepest stack of each exported call by its call graph: 'CALL BYTES'. FILE.s is what the
# compiler made, FILE.su has the frame of each function. Counted are the return address on x86-64, there the 128 bytes below the stack pointer that a
# function without calls may use, and 32 bytes for memcpy, memmove and memset. Fails where a function calls itself, or an address that is computed.
function in_quotes(text) { return substr(text, 2, index(substr(text, 2), "\"") - 1) }
function plain(name) { gsub(/"|@PLT/, "", name); return name }
FILENAME ~ /\.su$/ {
    n = split($0, part, "\t")
    name = part[1]
    sub(/^[^:]*:/, "", name)
    frame[name] = part[2]
    if (part[3] != "static") bad("the frame of " name " is " part[3])
    next
}
/^"[^"]*":/ || /^[^" \t.#@;][^#;]*:/ { name = $0; if (!(name ~ /^"/)) sub(/:[ \t]*([#@;].*)?$/, "", name); else name = in_quotes(name); name = plain(name); if (name in frame) { here = name; opening = 1; pushed = 0 } next }
# on x86-64 arguments are pushed, which no frame counts; the pushes that a function opens with are of its frame
machine == "x86" && $1 == "pushq" { if (!opening) pushed += 8; next }
/^[ \t]+[a-z]/ { opening = 0 }
machine == "x86" && $1 ~ /^(callq?|jmpq?)$/ || machine == "arm" && $1 ~ /^(bl|blx|b|b\.w|bx)$/ || machine == "riscv" && $1 ~ /^(call|tail|jalr|jr)$/ {
    operator = $1
    to = $0
    sub(/^[ \t]*[^ \t]+[ \t]+/, "", to)
    # the name of a generic function has a # in it, and stands in quotes
    if (to ~ /^"/) to = in_quotes(to)
    else if (machine == "x86") to = plain($2)
    else { sub(/[ \t]*([#@;].*)?$/, "", to); to = plain(to) }
    if (to ~ /^\.L/) next
    # jumps inside a function by a table, and returns
    if (operator ~ /^(jmpq?|bx|jr)$/ && to ~ /^(\*|lr$|r[0-9]+$|[ast][0-9]+$|ra$)/) next
    if (to ~ /^(\*|r[0-9]+$|[ast][0-9]+$|lr$)/) bad(here " calls a computed address, " to)
    calls[here] = calls[here] "\t" to
    above[here] = above[here] "\t" pushed
    pushed = 0
}
function bad(why) { print why >"/dev/stderr"; failed = 1 }
function deep(name, on,    list, more, i, n, most, down) {
    if (name ~ /^mem(cpy|move|set)$/) return 32
    if (!(name in frame)) { bad(name " is called, and has no frame"); return 0 }
    if (index(on, "\t" name "\t")) { bad(name " calls itself"); return 0 }
    if (name in known) return known[name]
    n = split(calls[name], list, "\t")
    split(above[name], more, "\t")
    most = 0
    for (i = 2; i <= n; i++) { down = deep(list[i], on name "\t") + more[i]; if (down > most) most = down }
    known[name] = frame[name] + most + (machine == "x86" ? 8 + (n < 2 ? 128 : 0) : 0)
    return known[name]
}
END {
    for (name in frame) if (name ~ /^kv_/) print name, deep(name, "\t")
    exit failed
}
