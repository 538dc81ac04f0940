# Lines 'WHO WORK ANSWER MICROSECONDS' become, for each work, the medians and the ratios of the proved one and each of its
# peers, of which there may be none, one or two. A line without a time is a count, and is written as it is, once.
# Arguments: -v peers="FIRST SECOND" -v width=COLUMNS, of the names of works.
BEGIN { split(peers, peer, " ") }
NF == 3 { if (!(($1, $2) in counts)) print $1, $2, $3; counts[$1, $2] = $3; next }
{
    key = $1 " " $2
    n[key]++
    times[key, n[key]] = $4
    if (!($2 in answer)) order[++works] = $2
    if (($2 in answer) && answer[$2] != $3) print "another answer: " $0
    answer[$2] = $3
}
function median(key,    i, j, t, k) {
    k = n[key]
    for (i = 1; i <= k; i++) a[i] = times[key, i] + 0
    for (i = 2; i <= k; i++) for (j = i; j > 1 && a[j - 1] > a[j]; j--) { t = a[j]; a[j] = a[j - 1]; a[j - 1] = t }
    return k == 0 ? 0 : a[int((k + 1) / 2)]
}
function row(work, proved, first, second, first_ratio, second_ratio) {
    if (peer[1] == "") {
        printf "%-" width "s %10s\n", work, proved
        return
    }
    if (peer[2] == "") {
        printf "%-" width "s %10s %10s %8s\n", work, proved, first, first_ratio
        return
    }
    printf "%-" width "s %10s %10s %10s %8s %8s\n", work, proved, first, second, first_ratio, second_ratio
}
function shown(time) { return time ? time : "-" }
function ratio(proved, time) { return time ? sprintf("%.2f", proved / time) : "-" }
function line(work,    p, s, t) {
    p = median("proved " work); s = median(peer[1] " " work); t = median(peer[2] " " work)
    row(work, p, shown(s), shown(t), ratio(p, s), ratio(p, t))
}
END {
    row("work", "proved", peer[1], peer[2], "p/" peer[1], "p/" peer[2])
    for (i = 1; i <= works; i++) line(order[i])
}
