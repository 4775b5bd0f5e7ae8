# Reads a dump and prints a line for each symbol: its frame and its text, the bits of SDA where SCL rises, with v and ^ where
# SDA falls and rises while SCL is high, and how long SCL was low and high for the last bit, in ns.
function tell() {
    if (text == "") return
    print frame, text, bits (low == "" ? "" : " " low "/" (now - rose))
    bits = low = ""
}
/^#/ { now = substr($0, 2) + 0 }
/^r/ { tell(); text = ""; frame = substr($1, 2) }
/^s/ { tell(); text = substr($1, 2) }
$0 == "0c" { scl = 0; fell = now }
$0 == "1c" { scl = 1; rose = now; if (text != "") { low = now - fell; bits = bits sda } }
$0 == "0d" { sda = 0; if (scl && text != "") bits = bits "v" }
$0 == "1d" { sda = 1; if (scl && text != "") bits = bits "^" }
END { tell() }
