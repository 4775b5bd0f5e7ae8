# Reads a trace and prints, without times, what levels.awk is to print of its dump.
function four(digit) {
    return substr("0000000100100011010001010110011110001001101010111100110111101111", 4 * index("0123456789ABCDEF", digit) - 3, 4)
}
function number(digits, all, i) {
    all = ""
    for (i = 1; i <= length(digits); i++) all = all four(substr(digits, i, 1))
    return all
}
function ninth(mark) { return mark == "+" ? 0 : 1 }
function bits(text) {
    if (text == "S") return "v"
    if (text == "Sr") return "1v"
    if (text == "P") return "0^"
    if (text ~ /^=/) return number(substr(text, 2))
    if (text ~ /^@/) return number(substr(text, 2, 2)) ninth(substr(text, 4))
    if (text ~ /\//) return substr(number(substr(text, 1, 2)), 2) (substr(text, 4, 1) == "R" ? 1 : 0) ninth(substr(text, 5))
    if (text ~ /\./) return number(substr(text, 1, 2)) substr(text, 4)
    return number(substr(text, 1, 2)) ninth(substr(text, 3))
}
{
    for (i = 1; i <= NF; i++) {
        if ($i == "S") frame++
        print frame, $i, bits($i)
    }
}
