# Draws lines 'PANEL SERIES X Y' as an SVG picture of four panels. After names.awk.
# A round step that cuts a range into at most five.
function step(most,    s, i) {
    for (s = 1; ; s *= 10) for (i = 1; i <= 3; i++) if (most / (s * factor[i]) <= 5) return s * factor[i]
}
function text(x, y, anchor, size, s) {
    printf "<text x=\"%.1f\" y=\"%.1f\" text-anchor=\"%s\" font-size=\"%d\">%s</text>\n", x, y, anchor, size, s
}
function line(x1, y1, x2, y2, colour, width) {
    printf "<line x1=\"%.1f\" y1=\"%.1f\" x2=\"%.1f\" y2=\"%.1f\" stroke=\"%s\" stroke-width=\"%s\"/>\n", x1, y1, x2, y2, colour, width
}
function width(s) { return s == 1 ? 3 : 1.5 }
function panel(p, left, top,    i, s, k, v, u, points, n, shown, rows) {
    text(left + wide / 2, top - 12, "middle", 15, title[p])
    u = step(high[p])
    while (u * rows < high[p]) rows++
    high[p] = u * rows
    for (v = 0; v <= high[p]; v += u) {
        line(left, top + tall - v / high[p] * tall, left + wide, top + tall - v / high[p] * tall, "#dddddd", 1)
        text(left - 6, top + tall - v / high[p] * tall + 4, "end", 11, thousands(v))
    }
    u = step(right[p])
    for (v = 0; v <= right[p]; v += u) {
        line(left + v / right[p] * wide, top + tall, left + v / right[p] * wide, top + tall + 4, "#000000", 1)
        text(left + v / right[p] * wide, top + tall + 18, "middle", 11, thousands(v))
    }
    line(left, top + tall, left + wide, top + tall, "#000000", 1)
    line(left, top, left, top + tall, "#000000", 1)
    text(left + wide / 2, top + tall + 36, "middle", 12, unit[p])
    printf "<text transform=\"translate(%d %d) rotate(-90)\" text-anchor=\"middle\" font-size=\"12\">", left - 74, top + tall / 2
    print "instructions of one call</text>"
    for (s = 1; s <= series; s++) {
        n = split(at[p, s], k, " ")
        if (!n) continue
        points = ""
        for (i = 1; i <= n; i += 2)
            points = points sprintf(" %.1f,%.1f", left + k[i] / right[p] * wide, top + tall - k[i + 1] / high[p] * tall)
        printf "<polyline fill=\"none\" stroke=\"%s\" stroke-width=\"%s\" points=\"%s\"/>\n", colour[s], width(s), substr(points, 2)
        line(left + 12, top + 12 + 18 * shown, left + 40, top + 12 + 18 * shown, colour[s], width(s))
        text(left + 46, top + 16 + 18 * shown++, "start", 12, name[s])
    }
}
BEGIN {
    wide = 340; tall = 230
    factor[1] = 1; factor[2] = 2; factor[3] = 5
    split("#c00000 #1f5fa8 #2e8b57 #8a5a00 #555555", colour, " ")
    split("key data skipped offers", order, " ")
    title["key"] = "Usage key: key length (label 20, no data)"; unit["key"] = "n, bytes"
    title["data"] = "Usage key of 64 bytes: data length (label 20)"; unit["data"] = "optional data, bytes"
    title["skipped"] = "Area: attributes of 4 bytes stepped over"; unit["skipped"] = "area, bytes"
    title["offers"] = "Area: offers, and a name of 17 bytes"; unit["offers"] = "offers"
}
{
    name_of = $2; gsub(/_/, " ", name_of)
    if (!(name_of in number_of)) { number_of[name_of] = ++series; name[series] = name_of }
    s = number_of[name_of]
    at[$1, s] = at[$1, s] " " $3 " " $4
    if ($3 > right[$1]) right[$1] = $3
    if ($4 > high[$1]) high[$1] = $4
}
END {
    print "<svg xmlns=\"http://www.w3.org/2000/svg\" width=\"900\" height=\"730\" viewBox=\"0 0 900 730\" font-family=\"sans-serif\">"
    print "<rect width=\"900\" height=\"730\" fill=\"white\"/>"
    text(450, 26, "middle", 17, "Instructions of one call as its input grows (x86-64, callgrind)")
    for (i = 1; i <= 4; i++) panel(order[i], 95 + (i - 1) % 2 * 450, 80 + int((i - 1) / 2) * 345)
    print "</svg>"
}
