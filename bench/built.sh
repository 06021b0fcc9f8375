# What the scripts beside it share, which source it: where the built programs stand, and a temporary folder that
# goes when the script ends.
bench=$(cd "$(dirname "${BASH_SOURCE[0]}")" && pwd)
scratch=$(mktemp -d)
trap 'rm -rf "$scratch"' EXIT

# The built program of a crate; fails where there is none, and says how it is built.
built() { # CRATE
    local program=$bench/../crates/$1/out/$1
    if [ -x "$program" ]; then
        echo "$program"
    elif [ "$1" = lat ]; then
        echo "bench: the program isn't built; run ./lat once" >&2
        return 1
    else
        echo "bench: the program isn't built; run rt run in crates/$1 once" >&2
        return 1
    fi
}
