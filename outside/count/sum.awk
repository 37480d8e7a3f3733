# sum.awk MARKS PARTS: each cost of outside/cost.c, a line `GROUP/WHAT/SIZE/SIDE COST` with a tab between, as they first come.
# A stretch's instructions are those between its two marks, less those of the empty one, which is the first.
FNR == NR {
    if ($1 in from) between[$1] = $2 - from[$1]
    else from[$1] = $2
    next
}
{
    cost = $4
    for (i = 5; i <= NF; i++) cost = cost " " $i
    if (!(cost in turns)) order[++count] = cost
    turns[cost] = $3
    total[cost] += $2 * (between[$1] - between[1])
}
END {
    for (i = 2; i <= count; i++) print order[i] "\t" total[order[i]] / turns[order[i]]
}
