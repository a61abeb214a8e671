# For the measuring programs, which source it from a folder beside it. `$here` is their folder, `$top` the repository's, and `$work` a
# fresh one, which is removed at the end. `workspace CRATE..` copies the named crates and all that they stand on into it, with their lines
# of crates.txt.
here=$(CDPATH= cd -- "$(dirname -- "$0")" && pwd)
top=$(CDPATH= cd -- "$here/../.." && pwd)
work=$(mktemp -d)
trap 'rm -rf "$work"' EXIT

workspace() {
    for name in "$@"; do
        # the libraries of the kit have no folder here
        [ -d "$top/crates/$name" ] && [ ! -d "$work/crates/$name" ] || continue
        mkdir -p "$work/crates/$name"
        # with what was proved and built of it, if it was
        for part in src specs proofs out; do
            [ ! -d "$top/crates/$name/$part" ] || cp -r "$top/crates/$name/$part" "$work/crates/$name/"
        done
        grep "^$name:" "$top/crates.txt" >>"$work/crates.txt"
        workspace $(sed -n "s/^$name://p" "$top/crates.txt")
    done
}
