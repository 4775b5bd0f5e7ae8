# Reads a picture and prints for each symbol its text and whose colours its boxes have: c is the controller's, t a target's, b
# both of them, n nobody's.
/^<g / {
    text = $0
    sub(/.*<text x='3' y='12'>/, "", text)
    sub(/<\/text>.*/, "", text)
    classes = ""
    rest = $0
    while (match(rest, /<rect class='[a-z]'/)) {
        classes = classes " " substr(rest, RSTART + RLENGTH - 2, 1)
        rest = substr(rest, RSTART + RLENGTH)
    }
    print text classes
}
