# Prints what each job takes of this library on three cores. After names.awk.
$1 == "cost" { cost[$2, $3] = $4; split($3, a, "-"); if ($5 > stack[$2, a[1]]) stack[$2, a[1]] = $5 }
function row(title, of, key) {
    printf "| %s | %s | %s | %s |\n", title, thousands(of["cortex-m4", key]), thousands(of["cortex-m0plus", key]), thousands(of["rv32imac", key])
}
END {
    print "\n| Instructions of this library | Cortex-M4 | Cortex-M0+ | rv32imac |\n|---|---|---|---|"
    for (j = 1; j <= jobs; j++) row(job_title[j], cost, job[j])
}
