# awk -f tools/exported.awk crates/*/src/*.rt: what the header has to declare for the crates, in the form of tools/header.awk: each function
# that is marked pub extern "C", and each struct that is marked #[repr(C)]. A slice is a pointer and a length in C. A struct's name in C is
# its name in small letters, without 'Outcome' at its end where what is left is no other struct's name. Lifetimes and the module of a type are nothing to C. `type` is a keyword in
# Rattle, where it stands as `attribute_type`.

# the structs that keep 'Outcome' at their end: kv_outcome, and kv_slots_outcome, which has a kv_slots in it
BEGIN { keeps_ending["Outcome"] = keeps_ending["SlotsOutcome"] = 1 }

function c_name(name) { return name == "attribute_type" ? "type" : name }

function c_type(type) {
    if (type ~ /^u(8|16|32|64)$/) return "uint" substr(type, 2) "_t"
    if (type == "usize") return "size_t"
    sub(/.*::/, "", type)
    return struct_name(type)
}

function struct_name(type) {
    if (!(type in keeps_ending)) sub(/Outcome$/, "", type)
    while (match(type, /[a-z0-9][A-Z]/)) type = substr(type, 1, RSTART) "_" tolower(substr(type, RSTART + 1, 1)) substr(type, RSTART + 2)
    return "kv_" tolower(type)
}

function parameter(name, type) {
    if (sub(/^&mut \[/, "", type)) { sub(/\]$/, "", type); return c_type(type) " *" name ", size_t " name "_len" }
    if (sub(/^&\[/, "", type)) { sub(/\]$/, "", type); return "const " c_type(type) " *" name ", size_t " name "_len" }
    return c_type(type) " " c_name(name)
}

function field(name, type,    parts) {
    if (type !~ /^\[/) return c_type(type) " " c_name(name) ";"
    split(substr(type, 2, length(type) - 2), parts, "; ")
    return c_type(parts[1]) " " name "[" parts[2] "];"
}

function tell_function(signature,    open, end, result, parts, pair, n, i, line) {
    open = index(signature, "(")
    end = index(signature, ") -> ")
    n = split(substr(signature, open + 1, end - open - 1), parts, ",")
    for (i = 1; i <= n; i++) {
        gsub(/^ +| +$/, "", parts[i])
        if (parts[i] == "") continue
        split(parts[i], pair, ": ")
        line = line (line == "" ? "" : ", ") parameter(pair[1], pair[2])
    }
    result = substr(signature, end + 5)
    gsub(/ +$/, "", result)
    print substr(signature, 1, open - 1), c_type(result) " (" line ")"
}

{ sub(/\/\/.*/, ""); gsub(/<'[a-z]+>/, ""); gsub(/&'[a-z]+ /, "\\&") }
/^#\[repr\(C\)\]/ { repr = 1; next }
/^#\[/ { next }
/^pub struct / && repr { struct = $3; line = "struct"; repr = 0; next }
{ repr = 0 }
struct != "" && /^[}]/ { print struct_name(struct), line; struct = ""; next }
struct != "" { sub(/^ *pub /, ""); sub(/,$/, ""); split($0, pair, ": "); line = line " " field(pair[1], pair[2]); next }
sub(/^pub extern "C" fn /, "") { within = 1; signature = "" }
within && /^ *(requires|ensures)|^[{]/ { tell_function(signature); within = 0 }
within { sub(/^ +/, ""); signature = signature $0 }
