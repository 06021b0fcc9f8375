#!/usr/bin/env bash
# Has the built program check the certificates of bench/data, and then one whose evade tree is 1,000,000
# forks deep and must be refused at its node 1. It prints for each what the program says, the seconds and the
# peak memory, and fails where an answer isn't the known one. Builds no crate.
cd "$(dirname "$0")/data" || exit 1
source ../built.sh
program=$(built lat) || exit 1
failed=0

# Checks a certificate, and prints what is said of it and what it took.
check() { # FILE WANTED
    local said
    said=$(/usr/bin/time -f "%e seconds, %M kilobytes at most" -o "$scratch/took" \
        "$program" check "$1" 2>&1 | tail -1)
    echo "$(basename "$1"), $(wc -c <"$1") bytes: $said, $(tail -1 "$scratch/took")"
    [ "$said" = "$2" ] || failed=1
}

check m05-a.cert "least 24"
check m18-a.cert "least 25"
check m33-a.cert "least 23"
# the certificate of docs/FORMATS.md, "A certificate, byte by byte", with the deep tree in place of its own
python3 - "$scratch/deep.cert" <<'PYTHON'
import sys
head = bytes.fromhex("4c41544345525431 0173 0001 0163 0001 0001 0174 01 0001 0001 0001 01 0002 80 00")
fork, close = bytes.fromhex("02 0000 0001"), bytes.fromhex("01")
lower = bytes.fromhex("0001 0000 01 02 0000")
with open(sys.argv[1], "wb") as file:
    file.write(head + fork * 1_000_000 + close + lower)
PYTHON
check "$scratch/deep.cert" "certificate false: robust 1"
exit "$failed"
