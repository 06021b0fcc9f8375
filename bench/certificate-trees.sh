#!/usr/bin/env bash
# Measures reading and writing again certificates whose evade tree is a chain of 1,000,000 forks, and of
# 13,400,000, which is about the greatest file that is read. It makes the files in a temporary folder, gives
# them to the built program of the crate cert_rows, and prints what it says with the seconds and the peak
# memory of its whole run; beside it those of a plain loop in Rust over the same bytes (plain-tree/main.rs),
# which this script builds with rustc. Builds no crate.
cd "$(dirname "$0")" || exit 1
source ./built.sh
program=$(built cert_rows) || exit 1
rustc -O -o "$scratch/plain-tree" plain-tree/main.rs || exit 1
cd "$scratch" || exit 1

# Writes a certificate, Least(2) of one contest with one target, with a chain of so many forks.
make() { # FORKS
    python3 - "$1" <<'PYTHON'
import sys
head = "0173 0001 0163 0001 0001 0174 01 0001 0001 0001"
front = bytes.fromhex("4c41544345525431" + head + "01 0002 80 00")
tree = bytes.fromhex("02 0000 0001") * int(sys.argv[1]) + bytes.fromhex("01")
lower = bytes.fromhex("0001 0000 01 02 0000")
open("chain.cert", "wb").write(front + tree + lower)
PYTHON
}

# The seconds and the peak memory of a command, behind what it prints.
measure() { # COMMAND..
    /usr/bin/time -f "  %U seconds, %M kilobytes at most" "$@" 2>&1
}

for forks in 1000000 13400000; do
    make "$forks"
    echo "$forks forks, $(wc -c <chain.cert) bytes"
    printf 'load chain.cert\nread\n' >lines
    echo "cert_rows: $(measure "$program" <lines)"
    echo "a plain loop: $(measure ./plain-tree chain.cert 32)"
done
