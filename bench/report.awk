# Prints what bench/run or bench/cortex-m4 measured as tables of docs/PERFORMANCE.md. After names.awk.
function median(list,    a, n, i, j, t) {
    n = split(list, a, " ")
    for (i = 2; i <= n; i++) for (j = i; j > 1 && a[j - 1] + 0 > a[j] + 0; j--) { t = a[j]; a[j] = a[j - 1]; a[j - 1] = t }
    return n % 2 ? a[(n + 1) / 2] : (a[n / 2] + a[n / 2 + 1]) / 2
}
function cell(what, c, row,    s) {
    if (!((what, c, row) in value)) return ""
    if (what == "time") return sprintf(" %.2f", value[what, c, row])
    s = " " thousands(value[what, c, row])
    return extra[what, c, row] ? s " + " thousands(extra[what, c, row]) : s
}
function table(title, what, rows, titles, count,    i, j) {
    printf "| %s |", title
    for (i = 1; i <= columns; i++) printf " %s |", heading[column[i]]
    printf "\n|---|"
    for (i = 1; i <= columns; i++) printf "---|"
    printf "\n"
    for (j = 1; j <= count; j++) {
        printf "| %s |", titles[j]
        for (i = 1; i <= columns; i++) printf "%s |", cell(what, column[i], rows[j])
        printf "\n"
    }
    printf "\n"
}
# This library's value to the least of the C libraries', which is named.
function ratio(what, row,    i, c, best, who, v) {
    for (i = 1; i <= columns; i++) {
        c = column[i]
        if (class[c] != "c" || !((what, c, row) in value)) continue
        v = value[what, c, row] + extra[what, c, row]
        if (who == "" || v < best) { best = v; who = heading[c] }
    }
    return sprintf("%.2f (%s)", value[what, "ketvaulo", row] / best, who)
}
$1 == "column" { column[++columns] = $2; class[$2] = $3; sub(/^column [^ ]+ [^ ]+ [^ ]+ /, ""); heading[column[columns]] = $0 }
$1 == "instructions" { value["instructions", $2, $3] = $4 }
$1 == "memory" {
    c = call_of[$3]
    if ($4 + $5 > deep[$2, c]) { deep[$2, c] = $4 + $5; value["memory", $2, c] = $4; extra["memory", $2, c] = $5 }
}
$1 == "size" { value["size", $2, $3] = $4; if ($5) zeroed[$2, $3] = $5 }
$1 == "archive" { archive = $2 }
$1 == "time" { timed = 1; times[$2, $3] = times[$2, $3] " " $4 / $5 }
END {
    for (k in times) { split(k, a, SUBSEP); value["time", a[1], a[2]] = median(times[k]) }
    table("Instructions", "instructions", job, job_title, jobs)
    if (timed) table("Wall time, OpenSSL = 1", "time", job, job_title, jobs)
    table(timed ? "Deepest stack (+ heap), bytes" : "Deepest stack, bytes", "memory", call, call_title, calls)
    table("Code and constants, bytes", "size", kind, kind_title, kinds)
    for (i = 1; i <= columns; i++) {
        c = column[i]
        if ((c, "all") in zeroed) others = others (others ? ", " : "") heading[c] " " thousands(zeroed[c, "all"]) " bytes"
    }
    if (others) printf "Zeroed data besides, for all of these: %s; the others have none.\n", others
    if (archive) printf "The archive has %s bytes of code and constants for all its calls.\n", thousands(archive)
    if (others || archive) printf "\n"

    printf "| Ratio to the best C library | instructions |%s stack%s | code and constants |\n|---|---|---|---|%s\n",
        timed ? " wall time |" : "", timed ? " and heap" : "", timed ? "---|" : ""
    for (j = 1; j <= jobs; j++)
        printf "| %s | %s |%s %s | %s |\n", job_title[j], ratio("instructions", job[j]), timed ? " " ratio("time", job[j]) " |" : "",
            ratio("memory", job_call[j]), ratio("size", job_kind[j])
    printf "| all of these | | |%s %s |\n", timed ? " |" : "", ratio("size", "all")
}
