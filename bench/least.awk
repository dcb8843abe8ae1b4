# Lines of bench/bench.c, each with `before` or `after` in front: of each the least time, and the ratio.
/live transactions at most/ {
    sizes[$1] = $0
    sub(/^[a-z]+ /, "", sizes[$1])
}
$NF != "ns" {
    head = $0
    sub(/^[a-z]+ /, "", head)
    next
}
{
    side = $1
    time = $(NF - 1)
    what = $0
    sub(/^[a-z]+ +/, "", what)
    sub(/ +[0-9]+ ns$/, "", what)
    key = head ": " what
    if (!(key in seen)) {
        seen[key] = ++count
        keys[count] = key
    }
    if (!((side, key) in least) || time < least[side, key])
        least[side, key] = time
}
END {
    printf "before: %s\nafter:  %s\n", sizes["before"], sizes["after"]
    printf "%-92s %8s %8s %6s\n", "nanoseconds a call, the least of all turns", "before", "after", "ratio"
    for (i = 1; i <= count; i++) {
        key = keys[i]
        # a call that the one before does not have
        if (!(("before", key) in least)) {
            printf "%-92s %8s %8d\n", key, "", least["after", key]
            continue
        }
        printf "%-92s %8d %8d %6.2f\n", key, least["before", key], least["after", key], least["after", key] / least["before", key]
    }
}
