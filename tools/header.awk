# awk -f tools/header.awk ketvaulo.h: what the header declares, in its order, one line each: a name, and its declaration.
#     KV_ROOM 6
#     kv_outcome struct uint32_t refusal; uint64_t value;
#     kv_sha256 kv_outcome (const uint8_t *message, size_t message_len, uint8_t *out, size_t out_len)
# The only reader of the header. tests/header.sh compares all of it with the crates; tests/build.rs and fuzz/run take the calls, which
# are the lines with a parenthesis. KV_USE_RESULT before a call, and a line that checks a layout, declare nothing. Whatever else the header
# declares is printed as it stands.

function trim(text) {
    gsub(/[ \t\n]+/, " ", text)
    sub(/^ /, "", text)
    sub(/ $/, "", text)
    return text
}

# 'A = 1, B = 2'
function tell_constants(text,    n, parts, pair, i) {
    n = split(text, parts, ",")
    for (i = 1; i <= n; i++) {
        if (trim(parts[i]) == "") continue
        split(parts[i], pair, "=")
        print trim(pair[1]), trim(pair[2])
    }
}

# 'uint32_t a, b; uint8_t c[16];' with a type before each name
function fields(text,    n, m, all, some, i, j, line, type) {
    n = split(text, all, ";")
    for (i = 1; i <= n; i++) {
        if (trim(all[i]) == "") continue
        m = split(trim(all[i]), some, /, ?/)
        type = substr(some[1], 1, index(some[1], " ") - 1)
        some[1] = substr(some[1], length(type) + 2)
        for (j = 1; j <= m; j++) line = line " " type " " some[j] ";"
    }
    return line
}

function tell(text,    open, name) {
    text = trim(text)
    sub(/^KV_USE_RESULT /, "", text)
    if (text ~ /^KV_LAYOUT\(.*\)$/) return
    if (text ~ /^enum [{].*[}]$/) {
        tell_constants(substr(text, 7, length(text) - 7))
    } else if (text ~ /^typedef struct [{].*[}] kv_[a-z0-9_]*$/) {
        name = text
        sub(/.*[}] /, "", name)
        sub(/ ?[}] kv_[a-z0-9_]*$/, "", text)
        print name, "struct" fields(substr(text, 17))
    } else if (text ~ /^[a-z0-9_]+ kv_[a-z0-9_]+\(.*\)$/) {
        open = index(text, "(")
        name = substr(text, 1, open - 1)
        sub(/.* /, "", name)
        print name, substr(text, 1, index(text, " ") - 1) " " substr(text, open)
    } else if (text != "") {
        print text
    }
}

{ text = text $0 "\n" }

END {
    while ((from = index(text, "/*")) > 0) {
        rest = substr(text, from)
        text = substr(text, 1, from - 1) " " substr(rest, index(rest, "*/") + 2)
    }
    n = split(text, lines, "\n")
    for (i = 1; i <= n; i++) {
        if (lines[i] ~ /^#|^extern "C" [{]$|^[}]$/) continue
        depth += gsub(/[{]/, "{", lines[i]) - gsub(/[}]/, "}", lines[i])
        statement = statement lines[i] " "
        if (depth == 0 && sub(/; *$/, "", statement)) {
            tell(statement)
            statement = ""
        }
    }
    tell(statement)
}
