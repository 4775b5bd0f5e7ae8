# What the tests share. A test sources it from its first lines, and says its name and its program:
#
#     . "$(dirname "${BASH_SOURCE[0]}")/common.bash"
#     use_program 'scripts' i3cbus "${1-}"

set -u
export LC_ALL=C
tests=$(cd "$(dirname "${BASH_SOURCE[0]}")" && pwd)
top=${tests%/*}

# use_program TEST NAME [FILE]: `program` is the file, or the one that `rt ci` leaves for the crate. Ends with 2 where there
# is none.
use_program() {
    program=${3:-$top/crates/$2/out/$2}
    if [ ! -f "$program" ] || [ ! -x "$program" ]; then
        echo "$1: no program at $program" >&2
        exit 2
    fi
    program=$(cd "$(dirname "$program")" && pwd)/$(basename "$program")
}

# use_room: `room` is a folder, which goes when the test ends.
use_room() {
    room=$(mktemp -d)
    trap 'rm -rf "$room"' EXIT
}

# use_compiler TEST: `compiler` is a C compiler. Ends with 2 where there is none.
use_compiler() {
    compiler=$(command -v cc || command -v gcc || command -v clang || true)
    if [ -z "$compiler" ]; then
        echo "$1: no C compiler, so nothing is tested" >&2
        exit 2
    fi
}

# split_scripts: each script of tests/scripts is a file of its own in `room`.
split_scripts() {
    local file
    for file in "$tests"/scripts/*.txt; do
        awk -v name="$room/$(basename "$file" .txt)" '
            $0 == "== script" { into = name "." ++number ".script"; next }
            /^== [0-9]+ refused$/ { into = "" }
            into { print > into }' "$file"
    done
}

# legacy_options: of what a script printed, on standard input, the options that name its legacy targets, on one line.
legacy_options() {
    awk '$2 == "legacy" && $3 == "at" && NF == 4 { printf "--legacy %s ", $4 }'
}
