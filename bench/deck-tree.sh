#!/usr/bin/env bash
# Measures the search of a deck tree at 20 targets, in nodes a second, and the making of the 32 patterns at
# 256 targets and 1,024 ballots. It makes a crate beside copies of the crates below in a temporary folder,
# proves and builds it there (several minutes the first time), and changes nothing here.
set -e
cd "$(dirname "$0")"
source=$PWD/deck-tree
crates="lemmas lat_base readings lat_ballots lat_misassign lat_tabulate tree_core tree_search \
    deck_state close_rules symmetry deck_space deck_builder"
folder=$(mktemp -d)
trap 'rm -rf "$folder"' EXIT
mkdir -p "$folder/crates/bench_tree/src" "$folder/crates/bench_tree/proofs/walker/WalkerChooserDecks/pick"
for crate in $crates; do
    mkdir -p "$folder/crates/$crate"
    cp -r "../crates/$crate/src" "$folder/crates/$crate/"
    for part in specs proofs; do
        if [ -d "../crates/$crate/$part" ]; then
            cp -r "../crates/$crate/$part" "$folder/crates/$crate/"
        fi
    done
    grep "^$crate:" ../crates.txt >>"$folder/crates.txt"
done
below="lat_base lat_ballots deck_state close_rules deck_space deck_builder tree_core tree_search"
echo "bench_tree: $below" >>"$folder/crates.txt"
cp ../HANDLES "$folder/"
cd "$folder/crates/bench_tree"
cp "$source/walker.rt.txt" src/walker.rt
cp "$source/answers.antt.txt" proofs/walker/WalkerChooserDecks/pick/Answers.antt

# Builds the program with these two values in it, and prints what it says and the seconds of its run.
measure() { # TREE BALLOTS
    sed "s/TREE/$1/; s/BALLOTS/$2/" "$source/main.rt.txt" >src/main.rt
    rt run >build.log 2>&1 || { tail -20 build.log >&2; exit 1; }
    TIMEFORMAT="in %U seconds"
    time ./out/bench_tree
}

measure true 15
measure false 0
