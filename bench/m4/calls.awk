# Prints what bench/controller measured. After names.awk.
$1 == "call" {
    if (!($3 in known)) { known[$3] = 1; name[++names] = $3 }
    if ($5 > stack[$2, $3]) stack[$2, $3] = $5
    if ($6 > cost[$2, $3]) cost[$2, $3] = $6
}
$1 == "code" { code[$2, $3] = $4; if ($5) data = 1 }
function cells(of, key) { return thousands(of["cortex-m4", key]) " | " thousands(of["cortex-m0plus", key]) " | " thousands(of["rv32imac", key]) }
function head(title) { printf "\n| %s | Cortex-M4 | Cortex-M0+ | rv32imac |\n|---|---|---|---|\n", title }
function milliseconds(instructions, cycles,    ms) {
    ms = instructions * cycles / 120000
    return ms < 0.1 ? sprintf("%.3f", ms) : ms < 10 ? sprintf("%.2f", ms) : sprintf("%.0f", ms)
}
END {
    head("Stack, bytes")
    for (i = 1; i <= names; i++) printf "| `%s` | %s |\n", name[i], cells(stack, name[i])
    head("Instructions")
    for (i = 1; i <= names; i++) printf "| `%s` | %s |\n", name[i], cells(cost, name[i])
    print "\n| Time on a Cortex-M4 at 120 MHz, ms | 1.0 cycles an instruction | 1.5 cycles |\n|---|---|---|"
    for (i = 1; i <= names; i++)
        printf "| `%s` | %s | %s |\n", name[i], milliseconds(cost["cortex-m4", name[i]], 1), milliseconds(cost["cortex-m4", name[i]], 1.5)
    head("Code and constants, bytes")
    for (i = 1; i <= names; i++) if (("cortex-m4", name[i]) in code) printf "| `%s` | %s |\n", name[i], cells(code, name[i])
    printf "| all of them | %s |\n", cells(code, "all")
    print data ? "\nThe library has data in RAM." : "\nNo call has data in RAM, neither initialised nor zeroed."
}
