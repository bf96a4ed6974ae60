# archive DIR: makes the archive of a checkout anew of what is proved there, if the toolchain is there, and says where it stands. A checkout of before this
# toolchain can't be built by it: of such a one the archive is taken that stands there. Before the names had the layout's number it was the toolchain's. For
# bench/against and bench/records.
archive() (
    cd "$1"
    if [ -x tools/staticlib ] && command -v rt >/dev/null; then
        tools/staticlib firmware && tools/archive || exit
    fi
    for file in target/libvilthomm.a target/staticlib/libfirmware.a; do
        [ ! -f "$file" ] || { echo "$PWD/$file"; exit; }
    done
    if [ -d crates ] && [ ! -x tools/staticlib ]; then
        echo "$1 has no archive, and was written for an older toolchain, which alone can make it: put it at $PWD/target/libvilthomm.a" >&2
    else
        echo "there is no archive in $1" >&2
    fi
    exit 1
)
