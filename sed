#!/bin/sh
# Becomes the program `sed` of this repository, with all arguments and the standard streams as they are. Where the
# program isn't built, or is older than a source, `./build` proves and builds it first, which needs the kit's command `rt`.
# It says so, and how far it is, on the standard error; on the standard output it writes nothing of its own.
# The status is 127 where the program can't be built.

# the folder that this script lies in, through symbolic links
self=$0
while [ -L "$self" ]; do
    target=$(readlink -- "$self")
    case $target in
        /*) self=$target ;;
        *) self=$(dirname -- "$self")/$target ;;
    esac
done
root=$(CDPATH='' cd -P -- "$(dirname -- "$self")" && pwd -P) || exit 127
program=$root/crates/sed/out/sed

# whether the program is there, and nothing that a crate is made from is newer
is_built() {
    [ -x "$program" ] || return 1
    set -- "$root/crates.txt"
    for part in "$root"/crates/*/src "$root"/crates/*/specs "$root"/crates/*/proofs; do
        [ -d "$part" ] && set -- "$@" "$part"
    done
    [ -z "$(find "$@" -newer "$program" -print 2>/dev/null | head -n 1)" ]
}

if ! is_built; then
    echo 'sed: proving and building the program, which takes about 7 to 18 minutes on four processors' >&2
    "$root/build" sed </dev/null >&2 || exit 127
fi
exec "$program" "$@"
