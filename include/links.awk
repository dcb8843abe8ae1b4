# The links of a refused chopping's circle, in words, from the file of its pieces: `circle` has the places of its pieces.
# what stands in front of a comment: the words before the first that begins with #
{
    sub(/^#.*/, ""); sub(/ #.*/, "")
    if ($0 == "") next
    count++; name[count] = $1; part = ""
    for (i = 2; i <= NF; i++) {
        if ($i == "reads" || $i == "writes") { part = $i; continue }
        touches[count, $i + 0] = 1
        if (part == "writes") writes[count, $i + 0] = 1
    }
}
function link(a, b,   x) {
    if (name[a] == name[b]) return "is a sibling of"
    for (x = 0; x < 64; x++)
        if (((a, x) in touches) && ((b, x) in touches) && (((a, x) in writes) || ((b, x) in writes)))
            return "conflicts on item " x " with"
}
END {
    n = split(circle, at, " ")
    for (i = 1; i <= n; i++) {
        a = at[i]; b = at[i % n + 1]
        print "piece " a " (" name[a] ") " link(a, b) " piece " b " (" name[b] ")"
    }
}
