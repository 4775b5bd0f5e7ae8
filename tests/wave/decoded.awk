# Reads a dump of `i3cbus wave`, and prints what an I2C decoder is to hear of its symbols, in the words of sigrok-cli: a START
# or a STOP, an address with its direction, the eight bits of a word, and the ninth bit as an ACK, which is 0. An identity has
# 64 bits without an answer, which a decoder counts by nine: `...` stands for all from there up to the next START or STOP.
function number(digits, value, i) {
    value = 0
    for (i = 1; i <= length(digits); i++) value = 16 * value + index("0123456789ABCDEF", substr(digits, i, 1)) - 1
    return value
}
/^s.* s$/ {
    text = substr($1, 2)
    if (text == "S" || text == "Sr" || text == "P") {
        print (text == "S" ? "Start" : text == "Sr" ? "Start repeat" : "Stop")
        astray = 0
    } else if (text ~ /^=/) {
        print "..."
        astray = 1
    } else if (!astray) {
        if (text ~ /\//) {
            way = text ~ /R/ ? "read" : "write"
            print (way == "read" ? "Read" : "Write")
            printf "Address %s: %02X\n", way, 2 * number(substr(text, 1, 2)) + (way == "read")
        } else {
            sub(/^@/, "", text)
            printf "Data %s: %s\n", way, substr(text, 1, 2)
        }
        print (text ~ /(\+|\.0)$/ ? "ACK" : "NACK")
    }
}
