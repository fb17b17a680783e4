# awk -f seeds.awk CALLS SEEDS: one line for each seed, a name for its file and its bytes in hexadecimal. CALLS has the name of each call in a
# line, in the order in which the harness counts them.

FNR == NR { place[$1] = calls++; next }

/^#/ || NF == 0 { next }

/^[^ ]/ {
    tell()
    if (!($1 in place)) {
        printf "fuzz/seeds:%d: no call %s\n", FNR, $1 >"/dev/stderr"
        exit 1
    }
    name = $1 "-" FNR
    hex = sprintf("%02x", place[$1])
    values = ""
    $1 = ""
}

{
    for (i = 1; i <= NF; i++) {
        if ($i == "") {
            continue
        } else if ($i == "[" || $i == "(") {
            before = hex
            hex = ""
        } else if ($i == "]" || $i == ")") {
            values = values hex
            hex = before sprintf("%04x", length(hex) / ($i == "]" ? 2 : 4))
        } else if (split($i, parts, ":") == 4) {
            hex = hex (parts[1] == "bundle" ? contents(number(parts[2]), number(parts[3])) : "") \
                bodies(number(parts[2]), number(parts[3]), parts[4])
        } else {
            times = split($i, parts, "*") == 2 ? parts[2] : 1
            while (times-- > 0) hex = hex parts[1]
        }
    }
}

END { tell() }

function number(hex,    n, i) {
    for (i = 1; i <= length(hex); i++) n = 16 * n + index("123456789abcdef", substr(hex, i, 1))
    return n + 0
}

# the Key IDs of attributes: alike but for the last byte, which goes from one number to another, up or down
function key_id(i) { return "6b65792d676174656b65792d676174" sprintf("%02x", i) }
function step(from, to) { return from <= to ? 1 : -1 }
function count(from, to) { return (to - from) * step(from, to) + 1 }

# Key attributes of 252 bytes, packed end to end
function bodies(from, to, last,    i, hex, key) {
    for (i = 0; i < 24; i++) key = key "9d3b71c4e85a2f60"
    for (i = 0; i < count(from, to); i++)
        hex = hex "1afc0000" "01020304" "6b656b2d796172646b656b2d79617264" key_id(from + i * step(from, to)) "00000e10" "a6a6a6a6a6a6a6a6" key "9d3b71c4e85a2f" last
    return hex
}

# the contents of their bundle
function contents(from, to,    i, hex) {
    hex = sprintf("%04x", count(from, to))
    for (i = 0; i < count(from, to); i++)
        hex = hex key_id(from + i * step(from, to)) sprintf("%04x%04x", 2 + 20 * count(from, to) + 252 * i, 252)
    return hex
}

# the seed that was read last
function tell() {
    if (name != "") print name, hex values
    name = ""
}
