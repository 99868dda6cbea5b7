# Read by the scripts beside it: copies crates of this checkout to a new repository in a temporary
# folder, which goes when the script ends. A Rattle source stands in a crate's src/ alone, so what is
# timed is built there.
top=$(cd "$(dirname "$0")/../.." && pwd)
here=$top/bench/$(basename "$(dirname "$0")")
folder=$(mktemp -d)
trap 'rm -rf "$folder"' EXIT

# These crates and all that they stand on.
copy_crates() {
    mkdir "$folder/crates"
    cp "$top/HANDLES" "$folder/"
    touch "$folder/crates.txt"
    for crate in "$@"; do
        copy_crate "$crate"
    done
}

copy_crate() {
    ! grep -q "^$1:" "$folder/crates.txt" || return 0
    grep "^$1:" "$top/crates.txt" >>"$folder/crates.txt"
    mkdir "$folder/crates/$1"
    for part in src specs proofs; do
        [ ! -d "$top/crates/$1/$part" ] || cp -r "$top/crates/$1/$part" "$folder/crates/$1/"
    done
    for below in $(sed -n "s/^$1://p" "$top/crates.txt"); do
        [ ! -d "$top/crates/$below" ] || copy_crate "$below"
    done
}

# A program of this name over these crates, from the source beside the script.
add_program() {
    (cd "$folder" && rt new "crates/$1" start_io >/dev/null)
    echo "$1: $2" >>"$folder/crates.txt"
    rm -f "$folder/crates/$1"/src/*.rt "$folder/crates/$1/stdin" "$folder/crates/$1/stdout"
    cp "$here/program.txt" "$folder/crates/$1/src/main.rt"
}
