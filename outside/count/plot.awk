# plot.awk COSTS: a call by value against the pending jobs, ours and the baseline, as SVG.
BEGIN {
    FS = "[/\t]"
    kinds = split("activate, goes last;terminate;chain, goes last;tick", kind, ";")
    split("none;7 4;2 3;9 3 2 3", dash, ";")
    left = 80; top = 50; width = 560; height = 400; low = 10; high = 100
}
$1 == "value" {
    for (k = 1; k <= kinds; k++) if ($2 == kind[k]) {
        point[$4, k, ++points[$4, k]] = $3 " " $5
        while (high < $5) high *= 10
        if ($3 > most) most = $3
        if (k == 1 && $4 == "C") jobs[++shown] = $3
    }
}
$1 == "copies" { copies = $5; bytes = $3 }

function x_of(n) { return left + width * n / most }
function y_of(n) { return top + height * log(high / n) / log(high / low) }
function text(x, y, anchor, words) { printf "<text x=\"%.1f\" y=\"%.1f\" text-anchor=\"%s\">%s</text>\n", x, y, anchor, words }
function line(x, y, u, v, style) { printf "<line x1=\"%.1f\" y1=\"%.1f\" x2=\"%.1f\" y2=\"%.1f\" %s/>\n", x, y, u, v, style }

# each kind has its own shape, full for ours and empty for C
function mark(k, x, y, side, fill) {
    fill = side == "ours" ? "black" : "white"
    if (k == 1) printf "<circle cx=\"%.1f\" cy=\"%.1f\" r=\"4\" fill=\"%s\"/>\n", x, y, fill
    else if (k == 2) printf "<rect x=\"%.1f\" y=\"%.1f\" width=\"7\" height=\"7\" fill=\"%s\"/>\n", x - 3.5, y - 3.5, fill
    else if (k == 3) printf "<path d=\"M%.1f %.1fl4.5 8h-9z\" fill=\"%s\"/>\n", x, y - 5, fill
    else printf "<path d=\"M%.1f %.1fl5 5l-5 5l-5 -5z\" fill=\"%s\"/>\n", x, y - 5, fill
}

function curve(side, k, i, p) {
    printf "<polyline fill=\"none\" stroke-width=\"1.3\" stroke-dasharray=\"%s\" points=\"", dash[k]
    for (i = 1; i <= points[side, k]; i++) { split(point[side, k, i], p, " "); printf "%.1f,%.1f ", x_of(p[1]), y_of(p[2]) }
    print "\"/>"
    for (i = 1; i <= points[side, k]; i++) { split(point[side, k, i], p, " "); mark(k, x_of(p[1]), y_of(p[2]), side) }
}

function legend(side, k, y) {
    printf "<polyline fill=\"none\" stroke-width=\"1.3\" stroke-dasharray=\"%s\" points=\"%d,%d %d,%d\"/>\n", dash[k], left + width + 24, y, left + width + 64, y
    mark(k, left + width + 44, y, side)
    label = label sprintf("<text x=\"%d\" y=\"%d\">%s, %s</text>\n", left + width + 72, y + 4, kind[k], side)
}

END {
    printf "<svg xmlns=\"http://www.w3.org/2000/svg\" viewBox=\"0 0 %d %d\" font-family=\"sans-serif\" font-size=\"13\">\n", left + width + 230, top + height + 70
    print "<rect width=\"100%\" height=\"100%\" fill=\"white\"/>"
    print "<g stroke=\"#ccc\" stroke-width=\"1\">"
    for (d = low; d <= high; d *= 10) line(left, y_of(d), left + width, y_of(d), "")
    for (i = 1; i <= shown; i++) line(x_of(jobs[i]), top, x_of(jobs[i]), top + height, "")
    print "</g>"
    print "<g stroke=\"black\">"
    line(left, top, left, top + height, "")
    line(left, top + height, left + width, top + height, "")
    line(left, y_of(copies), left + width, y_of(copies), "stroke-width=\"0.7\"")
    for (k = 1; k <= kinds; k++) { curve("ours", k); curve("C", k) }
    for (k = 1; k <= kinds; k++) { legend("ours", k, top + 24 * k); legend("C", k, top + 24 * (k + kinds) + 12) }
    print "</g>"
    print "<g fill=\"black\">"
    printf "%s", label
    for (d = low; d <= high; d *= 10) {
        text(left - 8, y_of(d) + 4, "end", d)
        for (m = 2; m <= 5; m += 3) if (m * d < high) text(left - 8, y_of(m * d) + 4, "end", m * d)
    }
    for (i = 1; i <= shown; i++) text(x_of(jobs[i]), top + height + 18, "middle", jobs[i])
    text(left + width / 2, top + height + 44, "middle", "pending jobs (after an activate, otherwise before the call)")
    text(left + width - 6, y_of(copies) + 15, "end", "two memcpy of the state, " bytes " bytes")
    text(left, 26, "start", "Instructions of a call: the proved scheduler by value (ours), and the baseline in C")
    printf "<text transform=\"translate(20 %d) rotate(-90)\" text-anchor=\"middle\">instructions (log scale)</text>\n", top + height / 2
    print "</g>"
    print "</svg>"
}
