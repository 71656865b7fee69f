# Read by the scripts beside it. Makes a scratch repository that goes at the end, in $scratch, with copies of the crates named.
scratch=$(mktemp -d)
trap 'rm -rf "$scratch"' EXIT

# crates_below NAME..
# Prints these crates and all of the repository's that they stand on, lowest first.
crates_below() {
    awk -v names="$*" '
        function add(name, parts, count, i) {
            if (!(name in below) || name in taken)
                return
            taken[name]
            count = split(below[name], parts, " ")
            for (i = 1; i <= count; i++)
                add(parts[i])
        }
        /^[a-z]/ { split($0, half, ":"); below[half[1]] = half[2]; order[++all] = half[1] }
        END {
            count = split(names, asked, " ")
            for (i = 1; i <= count; i++)
                add(asked[i])
            for (i = 1; i <= all; i++)
                if (order[i] in taken)
                    print order[i]
        }' "$(dirname "${BASH_SOURCE[0]}")/../crates.txt"
}

# scratch_crates NAME..
scratch_crates() {
    local top name
    top=$(cd "$(dirname "${BASH_SOURCE[0]}")/.." && pwd)
    git -C "$scratch" init -q
    cp "$top/HANDLES" "$scratch/"
    mkdir -p "$scratch/crates"
    for name in "$@"; do
        mkdir "$scratch/crates/$name"
        (cd "$top/crates/$name" && tar cf - --exclude=out .) | tar xf - -C "$scratch/crates/$name"
        grep "^$name:" "$top/crates.txt" >> "$scratch/crates.txt"
    done
}

# Where READ_ONLY isn't empty, the first call of rt compiles the program as it is, without its proofs, and the script ends there: with
# exit status 0 where the compiler took it.
rt() {
    if [ -z "$READ_ONLY" ]; then
        command rt "$@"
        return
    fi
    command rt try --steps 1 --seconds 1 < /dev/null > "$scratch/read" 2>&1 || true
    if grep -q '^run=none' "$scratch/read"; then
        grep error "$scratch/read" >&2
        exit 1
    fi
    exit 0
}
