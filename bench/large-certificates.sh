#!/usr/bin/env bash
# Measures the check of a certificate of 60,000,000 bytes: by the built program, which takes it in pieces, and
# by the built program of the crate cert_rows, whole and in pieces of 4,096 bytes. It prints the answers with
# the seconds of the best of three runs and the peak memory, and fails where an answer isn't the known one.
# Builds no crate.
#
# The certificate says that no deck of at most 7 ballots is good for 256 targets, which holds at once, since
# there are only 2^7 columns; its tree forks on marks all the same, 6,000,000 leaves in all.
cd "$(dirname "$0")" || exit 1
source ./built.sh
program=$(built lat) || exit 1
rows=$(built cert_rows) || exit 1
cd "$scratch" || exit 1
failed=0

python3 - <<'PYTHON'
from functools import cache

def number(n):
    return n.to_bytes(2, "big")

def name(text):
    return bytes([len(text)]) + text.encode()

@cache
def tree(leaves, depth):
    if leaves == 1:
        return bytes.fromhex("01 09")
    fork = bytes.fromhex("02 01") + number(0) + number(depth) + number(2)
    return fork + tree(leaves // 2, depth + 1) + tree(leaves - leaves // 2, depth + 1)

head = name("wide") + number(4)
for c in range(4):
    head += name(f"c{c}") + number(1) + number(64) + b"".join(name(f"t{t}") for t in range(64))
head += bytes.fromhex("01 0001 0001 0001")
contests = number(4) + b"".join(number(c) for c in range(4))
with open("large.cert", "wb") as file:
    file.write(b"LATCERT1" + head + bytes.fromhex("02 0007") + contests + tree(6_000_000, 0))
PYTHON

# What a command prints last, the seconds of the best of three runs, and the peak memory; it must end with
# the wanted words.
measure() { # WANTED COMMAND..
    local wanted=$1 said
    shift
    : >took
    for _ in 1 2 3; do
        said=$(/usr/bin/time -a -f "%e seconds, %M kilobytes at most" -o took "$@" 2>&1 | tail -1)
        [ "${said%"$wanted"}" != "$said" ] || failed=1
    done
    echo "  $said, $(grep seconds took | sort -n | head -1)"
}

echo "$(wc -c <large.cert) bytes"
echo "check:"
measure "none within 7" "$program" check large.cert
printf 'load large.cert\nwhole\n' >whole
printf 'load large.cert\npieces 4096\n' >pieces
echo "cert_rows, which holds the file besides, whole and in pieces:"
measure "none within 7" sh -c "'$rows' <whole"
measure "none within 7" sh -c "'$rows' <pieces"
exit "$failed"
