# awk -f tools/layouts.awk DECLARED: a C file with one array of numbers: the size and alignment of each struct of the header, and the place
# and size of each of its fields. DECLARED is what tools/header.awk makes of the header. Compiled for two machines, the file shows whether
# they lay the structs out alike.
BEGIN { print "/* Made by tools/layouts.awk. */\n#include <stddef.h>\n#include <ketvaulo.h>\nconst unsigned layouts[] = {" }
$2 == "struct" {
    printf "    sizeof(%s), _Alignof(%s),", $1, $1
    n = split($0, words, /[ ;]+/)
    for (i = 4; i <= n; i += 2) {
        sub(/\[.*/, "", words[i])
        if (words[i] != "") printf " offsetof(%s, %s), sizeof(((%s *)0)->%s),", $1, words[i], $1, words[i]
    }
    print ""
}
END { print "};" }
