# What the scripts of this folder share. The words are the program, the rounds, and the targets if not all are meant.
here="$(cd "$(dirname "$0")" && pwd)"
folder="$(mktemp -d)"
trap 'rm -rf "$folder"' EXIT
# Where any user may start it.
chmod 755 "$folder"
program="$folder/lakebridge"
install -m 755 "${1:?give the path of the program}" "$program"
rounds="${2:-50}"
targets=("${@:3}")
[ "${#targets[@]}" != 0 ] || targets=(delta hudi iceberg)

# table NAME COMMITS: makes a Delta table.
table() {
    python3 "$here/make_table.py" delta "$folder/$1" "$2"
}

# source_of TARGET: which format the target is written from.
source_of() {
    case "$1" in
        delta) echo hudi ;;
        *) echo delta ;;
    esac
}

# feed TARGET NAME COMMITS: brings the table that the target is written from to so many commits.
feed() {
    python3 "$here/make_table.py" "$(source_of "$1")" "$folder/$2" "$3"
}

# table_for TARGET NAME COMMITS: makes a table whose target has one commit, and so many more are due.
table_for() {
    feed "$1" "$2" 1
    "$program" "$folder/$2" sync "$(source_of "$1")" "$1" >"$folder/fed"
    feed "$1" "$2" $(($3 + 1))
}

# status WORD ..: what the program ends with.
status() {
    local ended=0
    "$program" "$@" >"$folder/said" 2>"$folder/complained" || ended=$?
    echo "$ended"
}
