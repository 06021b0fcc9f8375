#!/usr/bin/env bash
# Plans the styles of bench/data with the built program, at most 400 ballots, and prints for each what it
# says, the seconds, the peak memory and the size of its certificate. It fails where a style of known least
# size isn't answered so. Last comes a style of twenty contests of four targets with a budget of 1,000, which
# is answered or left open. Builds no crate.
cd "$(dirname "$0")/data" || exit 1
source ../built.sh
program=$(built lat) || exit 1
failed=0

# Plans a style in the temporary folder, and prints the third line with what it took.
plan() { # NAME STYLE BUDGET
    (cd "$scratch" && rm -f out.* && /usr/bin/time -f "%U seconds, %M kilobytes at most" -o took \
        "$program" plan "$1" "$2" out 400 "$3" 2>/dev/null | sed -n 3p >line)
    echo "$(cat "$scratch/line"), $(tail -1 "$scratch/took"), $(wc -c <"$scratch/out.cert") bytes of certificate"
}

while read -r style name budget least; do
    cp "$name.json" "$scratch/$name.json"
    answer=$(plan "$name.json" "$style" "$budget")
    echo "$name: $answer"
    case $answer in
        "least $least, "*) ;;
        "least "* | "open from "*) [ "$least" = - ] || failed=1 ;;
        *) failed=1 ;;
    esac
done <<'STYLES'
m05 m05-a 100000 24
m18 m18-a 100000 25
m33 m33-a 100000 23
m37 m37-b 1000000 -
t05 t05-c 1000000 -
t18 t18-a 1000000 -
t18 t18-a 3000000 -
STYLES
python3 - >"$scratch/twenty.json" <<'PYTHON'
import json
contests = [{"id": f"c{i}", "limit": 1, "targets": ["t1", "t2", "t3", "t4"]} for i in range(1, 21)]
style = {"id": "twenty", "contests": [c["id"] for c in contests]}
rules = {"distinct": True, "least": 1, "blank": 1, "over": 1}
print(json.dumps({"rules": rules, "contests": contests, "styles": [style]}))
PYTHON
answer=$(plan twenty.json twenty 1000)
echo "twenty contests, budget 1,000: $answer"
case $answer in
    "least "* | "open from "*) ;;
    *) failed=1 ;;
esac
exit "$failed"
