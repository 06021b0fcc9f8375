#!/usr/bin/env bash
# Attacks the decks of bench/data with the built program. For each robust deck it prints the answer, the
# seconds and the nodes of the tree: the least BUDGET that isn't spent, found by halving. A BUDGET below
# 1,000 isn't taken, so smaller trees are shown as "at most 1000". Then the same deck with the marks of
# two targets of equal totals in different contests made equal, which is evaded.
#
# Beside it stands a plain attack in Rust (plain-attack/main.rs) that this script builds with rustc: the
# same order and the same tests, so the same nodes. For each deck, and for the same deck 34 times over, the
# script prints the microseconds a node of both: of `verify` the whole process, of the plain one the attack
# alone. With valgrind it prints the instructions a node too. A deck of 100 targets and 30 ballots, cut from
# the last one, is compared as well. Last come `verify` of a deck of 256 targets in 64 contests, and of 1,024
# ballots that each mark 256 targets, which is mostly reading. Builds no crate.
cd "$(dirname "$0")/data" || exit 1
source ../built.sh
program=$(built lat) || exit 1

# Whether an attack with this budget ends.
ends() { # STYLE NAME BUDGET
    local code=0
    "$program" verify "$2.json" "$1" "$2.deck.csv" "$3" >/dev/null 2>&1 || code=$?
    # A budget that is spent leaves its tree beside the deck.
    rm -f "$2.deck.csv.open"
    [ "$code" -ne 9 ]
}

# The least budget that isn't spent, between one that is and one that isn't.
nodes() { # STYLE NAME SPENT ENOUGH
    local low=$3 high=$4 middle
    while [ $((high - low)) -gt 1 ]; do
        middle=$(((low + high) / 2))
        if ends "$1" "$2" "$middle"; then high=$middle; else low=$middle; fi
    done
    echo "$high"
}

# The answer, and the seconds that it took.
attack() { # STYLE NAME DECK BUDGET
    local start answer
    start=$(date +%s.%N)
    answer=$("$program" verify "$2.json" "$1" "$3" "$4" 2>/dev/null | sed -n 4p)
    awk -v answer="$answer" -v a="$start" -v b="$(date +%s.%N)" \
        'BEGIN { printf "%s, %.2f seconds", answer, b - a }'
}

while read -r style name budget; do
    robust=$(attack "$style" "$name" "$name.deck.csv" "$budget")
    if ends "$style" "$name" 1000; then
        count="at most 1000"
    else
        count=$(nodes "$style" "$name" 1000 "$budget")
    fi
    echo "$name: $robust, nodes $count"
    echo "$name, two columns equal: $(attack "$style" "$name" "$name.equal.deck.csv" "$budget")"
done <<'DECKS'
m05 m05-a 1000
m18 m18-a 10000
m33 m33-a 100000
DECKS

rustc -O -o "$scratch/plain-attack" ../plain-attack/main.rs || exit 1

# The best of five runs of a command, in seconds.
best() { # COMMAND..
    local i start end
    for i in 1 2 3 4 5; do
        start=$(date +%s.%N)
        "$@" >/dev/null 2>&1
        end=$(date +%s.%N)
        awk -v a="$start" -v b="$end" 'BEGIN { printf "%.6f\n", b - a }'
    done | sort -n | head -1
}

# The same ballots so many times over, numbered on.
repeat() { # DECK TIMES
    awk -F, -v times="$2" 'NR == 1 { print; next } { row[NR] = $0; if ($1 > most) most = $1 }
        END { for (k = 0; k < times; k++) for (i = 2; i <= NR; i++) {
            split(row[i], part, ","); print part[1] + k * most "," part[2] "," part[3] } }' "$1"
}

# The microseconds a node of both attacks on one deck.
compare() { # NAME STYLE DEF DECK BUDGET
    local plain nodes seconds
    python3 ../numbers.py "$3" "$2" "$4" >"$scratch/numbers"
    plain=$("$scratch/plain-attack" <"$scratch/numbers")
    nodes=$(echo "$plain" | cut -d' ' -f2)
    seconds=$(best "$program" verify "$3" "$2" "$4" "$5")
    awk -v name="$1" -v nodes="$nodes" -v seconds="$seconds" -v plain="$plain" \
        'BEGIN { printf "%s: verify %.2f us a node, plain Rust: %s\n", name, seconds * 1e6 / nodes, plain }'
    if command -v valgrind >/dev/null; then
        valgrind --tool=callgrind --callgrind-out-file=/dev/null "$program" verify "$3" "$2" "$4" "$5" 2>&1 |
            awk -v nodes="$nodes" '/Collected/ { printf "  verify %d instructions a node\n", $NF / nodes }'
        valgrind --tool=callgrind --callgrind-out-file=/dev/null "$scratch/plain-attack" \
            <"$scratch/numbers" 2>&1 |
            awk -v nodes="$nodes" '/Collected/ { printf "  plain Rust %d instructions a node\n", $NF / nodes }'
    fi
}

while read -r style name budget; do
    compare "$name" "$style" "$name.json" "$name.deck.csv" "$budget"
    repeat "$name.deck.csv" 34 >"$scratch/many.deck.csv"
    compare "$name, 34 times over" "$style" "$name.json" "$scratch/many.deck.csv" "$budget"
done <<'DECKS'
m05 m05-a 1000
m18 m18-a 10000
m33 m33-a 100000
DECKS

python3 ../cut.py m33-a.json m33 m33-a.deck.csv 100 30 "$scratch/cut"
compare "100 targets, 30 ballots" m33 "$scratch/cut.json" "$scratch/cut.deck.csv" 100000

echo "256 targets in 64 contests: $(best "$program" verify t256.json t256 t256.deck.csv 100000) seconds"
awk 'BEGIN { print "ballot,contest,target"
    for (j = 1; j <= 1024; j++) for (c = 0; c < 64; c++) for (t = 0; t < 4; t++) print j ",c" c ",t" t }' \
    >"$scratch/full.deck.csv"
echo "1,024 ballots of 256 targets: $(best "$program" verify t256.json t256 "$scratch/full.deck.csv" 1000) seconds"
