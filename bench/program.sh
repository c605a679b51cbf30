# Shared by the measurements of the front of the compiler, which read it in: a program of their own in a temporary folder.

here=$(cd "$(dirname "${BASH_SOURCE[0]}")/.." && pwd)
if ! command -v python3 >/dev/null; then
    echo "python3 isn't installed: nothing to make the source with" >&2
    exit 1
fi
work=$(mktemp -d)
trap 'rm -rf "$work"' EXIT
cd "$work" || exit 1

# Copies these crates here, without what was built of them.
copy_crates() {
    local name part
    for name in "$@"; do
        mkdir -p "crates/$name"
        for part in src specs proofs; do
            [ ! -d "$here/crates/$name/$part" ] || cp -r "$here/crates/$name/$part" "crates/$name/"
        done
        grep "^$name:" "$here/crates.txt" >>crates.txt
    done
}

# Takes a program of this name and these dependencies from the standard input, proves and builds it, and sets `program`.
build() {
    echo "$1: $2" >>crates.txt
    mkdir -p "crates/$1/src"
    cat >"crates/$1/src/main.rt"
    (cd "crates/$1" && rt run) >log 2>&1 </dev/null
    program=$work/crates/$1/out/$1
    if [ ! -x "$program" ]; then
        tail -n 20 log >&2
        echo "the program did not build" >&2
        exit 1
    fi
}

# Writes so many bytes of Visual Basic, of these forms, to a file.
source_of() {
    python3 "$here/bench/source.py" "$@"
}
