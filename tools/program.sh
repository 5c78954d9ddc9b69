# For the scripts `mark` and `walk`, which source this file: builds a program of the repository if it is not built yet.

# the checksum of all sources of a program
sources() {
    (cd "$1" && find crates.txt crates/*/{src,specs,proofs} -type f -print0 | LC_ALL=C sort -z | xargs -0 sha256sum | sha256sum)
}

# build_program ROOT NAME: proves and builds the program of the crate NAME, unless the sources and the program are those
# of the last build. Says so on standard error, since the first time takes minutes.
build_program() {
    local root=$1 name=$2
    local out=$root/crates/$name/out
    # the checksums of the last build: of its sources, and of the program
    local sums=$out/$name.sums
    local before log
    before=$(sources "$root")
    if [ -x "$out/$name" ] && [ "$before"$'\n'"$(sha256sum <"$out/$name")" = "$(cat "$sums" 2>/dev/null)" ]; then
        return
    fi
    if ! command -v rt >/dev/null; then
        echo "$(basename "$0"): there is no rt: the toolchain is needed (README.md says which)" >&2
        exit 1
    fi
    echo "$(basename "$0"): proving and building first: about 5 minutes on four processors the first time, less after a change" >&2
    # `rt run` builds a program and runs it; the output of that run is dropped. The toolchain's messages are shown only if
    # it fails.
    log=$(mktemp)
    if ! (cd "$root/crates/$name" && rt run) >/dev/null 2>"$log"; then
        cat "$log" >&2
        rm -f "$log"
        exit 1
    fi
    rm -f "$log"
    printf '%s\n' "$before" "$(sha256sum <"$out/$name")" >"$sums"
}
