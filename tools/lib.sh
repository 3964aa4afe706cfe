# shellcheck shell=sh
# Sourced in the repository's root by tools that keep what was proved and built: of which files it was, by their sums.

sum_of_input() { sha256sum | cut -d' ' -f1; }

# CRATE ..: the lines of crates.txt for them and for every crate below them.
crates_below() {
    awk -F: -v tops="$*" '
        function visit(crate,    names, count, i) {
            if (!(crate in below) || crate in seen) return
            seen[crate] = 1
            print crate ":" below[crate]
            count = split(below[crate], names, " ")
            for (i = 1; i <= count; i++) visit(names[i])
        }
        { sub(/#.*/, "") }
        !NF { next }
        { sub(/ .*/, "", $1); below[$1] = $2 }
        END { count = split(tops, top, " "); for (i = 1; i <= count; i++) visit(top[i]) }' crates.txt | LC_ALL=C sort
}

# CRATE ..: the SHA-256 of those lines and of the crates' code, definitions and proofs, by name.
sources_of() {
    {
        crates_below "$@"
        for crate in $(crates_below "$@" | cut -d: -f1); do
            for part in src specs proofs; do
                [ ! -d "crates/$crate/$part" ] || find "crates/$crate/$part" -type f
            done
        done | LC_ALL=C sort | xargs sha256sum
    } | sum_of_input
}

# WORD FILE RECORD SUM: the file is there, is the one that the record names, and was built from the sources with this sum.
is_built_from() {
    [ -f "$2" ] && [ -f "$3" ] || return 1
    grep -qx "$1 $(sum_of_input <"$2")" "$3" && grep -qx "sources $4" "$3"
}

# WORD FILE SUM: the record of a file that was built just now.
record() {
    printf '%s %s\nsources %s\ntoolchain %s\n' "$1" "$(sum_of_input <"$2")" "$3" "$(rt version)"
}

# WHAT STATUS: ends with the status where the toolchain is missing.
need_rt() {
    if ! command -v rt >/dev/null 2>&1; then
        echo "to prove and build the $1 the Rattle toolchain's command rt must be on the PATH (README.md, Test it)" >&2
        exit "$2"
    fi
}
