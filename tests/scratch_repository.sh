# For the scripts of this folder: `repository FOLDER NAME LIBRARY..` makes, in an empty folder, a repository of this one's libraries
# and a program NAME over some of them, whose text is programs/NAME.rt.in. `rt try` reads it, which proves nothing and keeps no files.
repository() {
    local folder=$1 name=$2 top crate part
    shift 2
    top=$(cd "$(dirname "${BASH_SOURCE[0]}")/.." && pwd)
    grep '^rb_' "$top/crates.txt" >"$folder/crates.txt"
    echo "$name: $*" >>"$folder/crates.txt"
    cp "$top/HANDLES" "$folder"
    for crate in "$top"/crates/rb_*; do
        mkdir -p "$folder/crates/${crate##*/}"
        for part in src specs proofs; do
            [ ! -d "$crate/$part" ] || cp -R "$crate/$part" "$folder/crates/${crate##*/}/"
        done
    done
    mkdir -p "$folder/crates/$name/src"
    cp "$top/tests/programs/$name.rt.in" "$folder/crates/$name/src/main.rt"
}
