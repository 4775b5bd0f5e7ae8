# Reads a picture and prints a line for each symbol: its frame and its text, and the bits of SDA where SCL rises, with v and ^
# where SDA falls and rises while SCL is high, as tests/wave/symbols.awk prints them. A trace that doesn't begin where the one
# before it ended is told.
function path(text, into, parts, n, i) {
    sub(/^<path d='M0 /, "", text)
    sub(/'\/>$/, "", text)
    n = split(text, parts, /V/)
    for (i = 1; i <= n; i++) {
        sub(/h.*/, "", parts[i])
        into[i] = parts[i] + 0
    }
    return n
}
BEGIN { scl = 21; sda = 36 }
/^<g / {
    text = $0
    sub(/.*<text x='3' y='12'>/, "", text)
    sub(/<\/text>.*/, "", text)
    match($0, /<path [^>]*>/)
    count = path(substr($0, RSTART, RLENGTH), clock)
    rest = substr($0, RSTART + RLENGTH)
    match(rest, /<path [^>]*>/)
    if (path(substr(rest, RSTART, RLENGTH), data) != count) print "the lines have not as many levels: " text
    if (clock[1] != scl || data[1] != sda) print "the lines jump: " text
    bits = ""
    for (i = 2; i <= count; i++) {
        if (scl == 31 && clock[i] == 21) bits = bits (data[i] == 36)
        else if (scl == 21 && clock[i] == 21 && data[i] != sda) bits = bits (data[i] == 36 ? "^" : "v")
        scl = clock[i]
        sda = data[i]
    }
    if (text == "S") frame++
    print frame, text, bits
}
