# Prints how many instructions more each length costs, from lines 'PANEL SERIES LENGTH INSTRUCTIONS'. After names.awk.
{ k = $1 SUBSEP $2; if (!(k in n)) { x0[k] = $3; y0[k] = $4 } n[k]++; x[k, n[k]] = x1[k] = $3; y[k, n[k]] = y1[k] = $4 }
# Instructions for so many units of length, and how far any point is from the straight line.
function slope(panel, who, units,    k, m, i, d) {
    k = panel SUBSEP who
    if (!(k in n)) return ""
    m = (y1[k] - y0[k]) / (x1[k] - x0[k])
    for (i = 1; i <= n[k]; i++) { d = (y[k, i] - y0[k] - m * (x[k, i] - x0[k])) / y[k, i]; if (d < 0) d = -d; if (d > off) off = d }
    return " " thousands(m * units + 0.5)
}
function row(title, panel, units) {
    printf "| %s |%s |%s |%s |%s |%s |\n", title, slope(panel, "this_library", units), slope(panel, "BearSSL", units),
        slope(panel, "mbedTLS", units), slope(panel, "wolfSSL", units), slope(panel, "C_by_hand", units)
}
END {
    print "| Instructions more for | this library | BearSSL | mbedTLS | wolfSSL | C by hand |\n|---|---|---|---|---|---|"
    row("32 bytes of key, label 20, no data", "key", 32)
    row("64 bytes of data, in a key of 64 bytes", "data", 64)
    row("an attribute of four bytes stepped over", "skipped", 4)
    row("an offer", "offers", 1)
    printf "\nNo point is further than %.1f %% from the straight line between the ends of its curve.\n", 100 * off
}
