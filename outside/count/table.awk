# table.awk COSTS: the costs as tables of plain text, or with -v markdown=1 of Markdown. A dash stands where there is none.
BEGIN { FS = "[/\t]" }
{
    if (!(($1, $2) in known)) { known[$1, $2] = 1; row[$1, ++rows[$1]] = $2 }
    cost[$1, $2, $3, $4] = $5
    if ($4 == "front") front = 1
}

function cells(values, count, i, text) {
    text = markdown ? "|" : sprintf("%-26s", values[0])
    if (markdown) for (i = 0; i < count; i++) text = text " " values[i] " |"
    else for (i = 1; i < count; i++) text = text sprintf(i % each == 1 || each == 1 ? "%11s" : "%7s", values[i])
    sub(/ +$/, "", text)
    print text
}

# the line below the head of a Markdown table
function rule(columns, i) {
    printf "|---|"
    for (i = 0; i < columns; i++) printf "--:|"
    print ""
}

# for each size the two sides and their ratio; or, where a unit is given, ours as a multiple of it
function table(group, title, of, sizes, unit, n, i, k, size, line, head, ours, theirs) {
    n = split(sizes, size, " ")
    each = unit ? 1 : 3
    line[0] = title
    for (k = 1; k <= n; k++) {
        head = of ~ / $/ ? of size[k] : of
        if (unit) line[k] = head
        else { line[3 * k - 2] = head (markdown ? ": ours" : ""); line[3 * k - 1] = markdown ? "C" : ""; line[3 * k] = markdown ? "ratio" : "" }
    }
    print ""
    cells(line, 1 + each * n)
    if (markdown) rule(each * n)
    else if (!unit) {
        line[0] = ""
        for (k = 1; k <= n; k++) { line[3 * k - 2] = "ours"; line[3 * k - 1] = "C"; line[3 * k] = "ratio" }
        cells(line, 1 + 3 * n)
    }
    for (i = 1; i <= rows[group]; i++) {
        line[0] = row[group, i]
        for (k = 1; k <= n; k++) {
            ours = cost[group, line[0], size[k], "ours"]
            theirs = cost[group, line[0], size[k], "C"]
            if (unit) line[k] = sprintf("%.1f", ours / unit)
            else if (ours == "") line[3 * k - 2] = line[3 * k - 1] = line[3 * k] = "-"
            else { line[3 * k - 2] = sprintf("%.0f", ours); line[3 * k - 1] = sprintf("%.0f", theirs); line[3 * k] = sprintf("%.1f", ours / theirs) }
        }
        cells(line, 1 + each * n)
    }
}

# an activate with the search from the back and, where it was counted, from the front; beside it C
function searches(group, title, sizes, n, i, k, at, size, side, line, under) {
    n = split(sizes, size, " ")
    each = split(front ? "front ours C" : "ours C", side, " ")
    line[0] = title
    for (k = 1; k <= n; k++) for (i = 1; i <= each; i++) {
        at = each * (k - 1) + i
        under[at] = side[i] == "ours" ? "back" : side[i]
        line[at] = i > 1 ? "" : "pending " size[k] (markdown ? ": " : "")
        if (markdown) line[at] = line[at] under[at]
    }
    print ""
    cells(line, 1 + each * n)
    if (markdown) rule(each * n)
    else cells(under, 1 + each * n)
    for (i = 1; i <= rows[group]; i++) {
        line[0] = row[group, i]
        for (k = 1; k <= n; k++) for (at = 1; at <= each; at++) line[each * (k - 1) + at] = sprintf("%.0f", cost[group, line[0], size[k], side[at]])
        cells(line, 1 + each * n)
    }
}

END {
    print "Instructions of x86-64, counted under Nehalem (x86-64-v2): the proved crates (ours), the baseline in C, and the ratio."
    print "Pending jobs: after an activate, otherwise before the call."
    table("value", "a call by value", "pending ", "1 8 32")
    table("place", "a call for C, in place", "pending ", "1 8 32")
    searches("activate", "pending before an activate", "1 8 16 31")
    table("number", "a number on tape", "groups ", "1 2 5 9")
    table("program", "the program", "a record", "1")
    copies = cost["copies", "two memcpy", state, "ours"]
    printf "\nThe state copied in and out, two memcpy of %d bytes: %d. A call by value as a multiple of that:\n", state, copies
    table("value", "a call by value", "pending ", "1 8 32", copies)
}
