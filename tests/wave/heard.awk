# Reads what is to be heard of a dump, as decoded.awk prints it, and then what sigrok-cli decodes of it, and prints the first
# line in which they differ.
NR == FNR { wanted[++count] = $0; next }
{
    sub(/^i2c-1: /, "")
    if (wanted[at + 1] == "..." && $0 !~ /^St/) next
    if (wanted[at + 1] == "...") at++
    if ($0 == wanted[++at]) next
    print "line " at ": " $0 " is heard, where " wanted[at] " was sent"
    different = 1
    exit
}
END {
    if (wanted[at + 1] == "...") at++
    if (!different && at != count) print "line " at + 1 ": " wanted[at + 1] " is not heard"
}
