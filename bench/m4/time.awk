# Prints how long each call of this library takes at 120 MHz, if an instruction takes 1.0 or 1.5 cycles. After names.awk.
function milliseconds(instructions, cycles) { return sprintf("%.2f ms", instructions * cycles / 120000) }
function row(title, instructions) { printf "| %s | %s | %s |\n", title, milliseconds(instructions, 1), milliseconds(instructions, 1.5) }
$1 == "instructions" && $2 == "ketvaulo" { cost[$3] = $4 }
END {
    print "\n| Time at 120 MHz, an estimate | 1.0 cycles an instruction | 1.5 cycles an instruction |\n|---|---|---|"
    for (j = 1; j <= jobs; j++) row(job_title[j], cost[job[j]])
    delivery = 3 * cost["usage-64"] + cost["write-192"] + cost["read-192"]
    row("a delivery", delivery)
    row("80 deliveries, in a minute", 80 * delivery)
    keys = cost["r0-key"] + cost["r1-key"]
    row("a handover: R0-Key and R1-Key", keys)
    row("80 of these, in a minute", 80 * keys)
    printf "\n80 deliveries in a minute take %.1f to %.1f %% of the core.\n", 80 * delivery / 120e6 / 60 * 100, \
        80 * delivery * 1.5 / 120e6 / 60 * 100
}
