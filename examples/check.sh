#!/bin/sh
# Runs every example and compares what it prints with what stands in expected/: the output in NAME.out, or for an example
# that is refused its one line in NAME.err. The page of `explain all` has to have each fault of `explain` once and in order, with
# the text of `explain CODE` below it, and these faults are those of the tests. Draws the pictures of docs/pictures/ and compares
# them too; where xmllint is found (Debian: libxml2-utils), each has to be well-formed XML.
#
#     examples/check.sh            says which examples differ, and ends with status 1 where one does
#     examples/check.sh --write    writes expected/ anew, and docs/pictures
set -eu
here=$(CDPATH= cd -- "$(dirname -- "$0")" && pwd)
qlock=$here/../qlock
show=$here/../qlock-show
pictures=$here/../docs/pictures
write=${1:-}
work=$(mktemp -d)
trap 'rm -rf "$work"' EXIT
trap 'exit 143' TERM
passed=0
failed=0

# compares a file with the expected one of this name
compare() {
    if [ "$write" = --write ]; then
        cp "$1" "$here/expected/$2"
    elif diff -u "$here/expected/$2" "$1"; then
        passed=$((passed + 1))
    else
        failed=$((failed + 1))
    fi
}

# example NAME INPUT STATUS WORDS..: runs the program, which is qlock unless it says otherwise, with these words on this input
program=$qlock
example() {
    name=$1
    input=$2
    wanted=$3
    shift 3
    status=0
    "$program" "$@" < "$input" > "$work/out" 2> "$work/err" || status=$?
    if [ "$status" -ne "$wanted" ]; then
        echo "$name: status $status, wanted $wanted" >&2
        failed=$((failed + 1))
    elif [ "$wanted" -eq 0 ]; then
        compare "$work/out" "$name.out"
    elif [ -s "$work/out" ]; then
        echo "$name: refused, and yet something was written" >&2
        failed=$((failed + 1))
    else
        compare "$work/err" "$name.err"
    fi
}

# shown NAME INPUT WORDS..: the same of qlock-show, which does not refuse these
shown() {
    name=$1
    input=$2
    shift 2
    if "$show" "$@" < "$input" > "$work/out" 2> "$work/err"; then
        compare "$work/out" "show-$name.out"
    else
        echo "show-$name: $(cat "$work/err")" >&2
        failed=$((failed + 1))
    fi
}

# joins parts of an input by lines %%
parts() {
    cat "$1"
    shift
    for part; do
        echo %%
        cat "$part"
    done
}

cd "$here"

# coteries, made and planned
example make-grid-3-3 /dev/null 0 make grid 3 3
example make-majority-5 /dev/null 0 make majority 5
example make-tree-2 /dev/null 0 make tree 2
example make-wheel-3 /dev/null 0 make wheel 3
example make-cyclic-7 /dev/null 0 make cyclic 7 0 1 3
for coterie in grid-3-3 majority-5 wheel-3 wheel-3-fast-hub cyclic-7 three-racks; do
    example "plan-$coterie" "$coterie.toml" 0 plan
done

# these have several optimal plans, and any of them may come: only the loads are compared
for coterie in tree-2 weighted-votes three-centres; do
    "$qlock" plan < "$coterie.toml" > "$work/plan" || true
    parts "$coterie.toml" "$work/plan" > "$work/input"
    example "check-$coterie" "$work/input" 0 check
done

# coteries whose voters have capacities 1 and 2 by turns: each gets a plan, and the plan's load is compared
for coterie in ../bench/coteries/*.toml; do
    name=$(basename "$coterie" .toml)
    awk '{ print }
        /^voters = / {
            voters = gsub(/"[^"]*"/, "")
            list = "1"
            for (i = 1; i < voters; i++) list = list ", " (i % 2 + 1)
            print "capacity = [" list "]"
        }' "$coterie" > "$work/coterie"
    "$qlock" plan < "$work/coterie" > "$work/plan" || true
    parts "$work/coterie" "$work/plan" > "$work/input"
    printf '%s ' "$name"
    "$qlock" check < "$work/input" || true
done | sed 's/ cycle .*//' > "$work/loads"
compare "$work/loads" loads-with-capacities.out

# plans, checked and dealt by
example check-wheel-3 wheel-3-planned.txt 0 check
example deal-wheel-3 wheel-3-planned.txt 0 deal 5
example check-wheel-3-fast-hub wheel-3-fast-hub-planned.txt 0 check
example deal-wheel-3-fast-hub wheel-3-fast-hub-planned.txt 0 deal 7

# stories of the lock
for world in race late-message withdrawal lost-release; do
    example "world-$world" "world-$world.txt" 0 world
done

# the longest input: a script of more than a million steps
{
    printf 'voters = ["a"]\nquorums = [["a"]]\n%%%%\nquorum-plan 1\nload 1/1\ncycle 1\nquorum 1\nvoter 1\n%%%%\nworld 1 1\n'
    yes 'remind-voter 0' | head -n 1118000
    echo 'ask 0'
} > "$work/input"
example world-of-a-million-steps "$work/input" 0 world

# runs: of one client as it is, of four and of the largest one by what the record comes to
example run-one-client wheel-3-planned.txt 0 run 1 3 1000000
"$qlock" run 4 100 1000000000000 < wheel-3-planned.txt > "$work/record" || true
parts wheel-3-planned.txt "$work/record" > "$work/input"
example replay-four-clients "$work/input" 0 replay
"$qlock" run 64 1000 1000000000000 < wheel-3-planned.txt > "$work/record" || true
parts wheel-3-planned.txt "$work/record" > "$work/input"
example replay-most-passes "$work/input" 0 replay
example replay-record replay-record.txt 0 replay
example replay-wheel-3 replay-wheel-3.txt 0 replay

# refusals
example two-disjoint-quorums refused-disjoint.toml 1 plan
example plan-that-is-not-optimal refused-plan.txt 1 check
example plan-for-other-capacities refused-capacity.txt 1 check
example weights-in-place-of-a-plan wheel-3-near.txt 1 check
example ticket-drawn-twice refused-record.txt 1 replay
example script-without-world refused-script.txt 1 world
example no-plan-at-all wheel-3.toml 1 check
example no-turns wheel-3-planned.txt 1 run 2 1 0
example wheel-of-1-rim /dev/null 1 make wheel 1
example grid-of-one-number /dev/null 2 make grid 2

# files in place of standard input: file k is part k, `-` is standard input, and behind a word -- no file is named
example check-wheel-3 /dev/null 0 check -f wheel-3.toml -f wheel-3.plan
example check-wheel-3 wheel-3.plan 0 -f wheel-3.toml check -f -
example deal-wheel-3 /dev/null 0 deal -f wheel-3-planned.txt 5
example replay-record /dev/null 0 replay -f replay-record.txt
cp wheel-3.toml "$work/a coterie.toml"
printf '%s' "$(cat wheel-3.plan)" > "$work/-plan"
printf '%s' "$(cat wheel-3.toml)" > "$work/--"
echo 'voters = ["-f", "wheel-3.toml"]
quorums = [["-f"]]' > "$work/words.toml"
cd "$work"
example check-plan-without-newline /dev/null 1 check -f "a coterie.toml" -f -plan
echo >> ./-plan
example check-wheel-3 /dev/null 0 check -f "a coterie.toml" -f -plan
example check-wheel-3 /dev/null 0 check -f -- -f -plan
cd "$here"
example no-such-file /dev/null 3 check -f wheel-3.toml -f "no such.plan"
example folder-as-file /dev/null 3 plan -f .
example folder-after-a-file /dev/null 3 check -f wheel-3.toml -f faults
example file-without-a-name /dev/null 2 plan -f
example file-as-a-word /dev/null 2 plan wheel-3.toml
example file-behind-the-end /dev/null 2 plan -- -f wheel-3.toml
shown without-a-voter-f /dev/null without -f "$work/words.toml" -- -f
shown without-a-voter-like-a-file /dev/null without wheel-3.toml -f "$work/words.toml"

# pages for people: plans, tickets, stories, explanations, and where an input has its fault
for coterie in grid-3-3 majority-5 wheel-3 wheel-3-fast-hub cyclic-7 tree-2 three-racks weighted-votes three-centres; do
    "$qlock" plan < "$coterie.toml" > "$work/plan" || true
    parts "$coterie.toml" "$work/plan" > "$work/input"
    shown "plan-$coterie" "$work/input" plan
done
shown plan-one-of-three one-of-three-planned.txt plan
shown deal-wheel-3 wheel-3-planned.txt deal 5
shown deal-fast-majority fast-majority-planned.txt deal 1
shown deal-wheel-3-fast-hub wheel-3-fast-hub-planned.txt deal 7
shown deal-even-wheel-3 wheel-3-planned.txt deal --even 5
shown deal-even-wheel-3-fast-hub wheel-3-fast-hub-planned.txt deal --even 7
for world in race late-message withdrawal refusals lost-release crash exchange eviction rebirth three-passes most; do
    shown "world-$world" "world-$world.txt" world
done
# how long pages end: of the most tickets in each order, and of a script of 100,000 steps and one more
{
    "$show" deal 100000 < wheel-3-planned.txt | tail -n 7
    "$show" deal --even 100000 < wheel-3-planned.txt | tail -n 7
    { cat wheel-3-planned.txt; printf '%%%%\nworld 2 1\n'; yes 'remind-voter 3' | head -n 100000; echo 'ask 1'; } > "$work/input"
    "$show" world < "$work/input" | tail -n 8
} > "$work/ends"
compare "$work/ends" show-ends-of-long-pages.out
# a reader that ends before the page does: no line on standard error, and status 0. A full device is another thing
{
    { status=0; "$show" deal 100000 < wheel-3-planned.txt 2> "$work/err" || status=$?; echo "status $status" > "$work/status"; } | head -n 1
    cat "$work/err" "$work/status"
    "$show" deal 5 < wheel-3-planned.txt 2>&1 > /dev/full || echo "status $?"
    "$show" --help 2>&1 > /dev/full || echo "status $?"
} > "$work/ends"
compare "$work/ends" show-unread-page.out
shown explain-disjoint /dev/null explain E7
shown waiting-five /dev/null waiting 5 --round 2
shown waiting-nine-of-which-two-give-up /dev/null waiting 9 2
shown waiting-most /dev/null waiting 64 1000000 --round 86400
shown waiting-while-two-are-dead /dev/null waiting 5 --down 1 --dead 2 --round 2
shown waiting-while-a-voter-is-down /dev/null waiting 9 2 --down 1
shown explain-list /dev/null explain
shown fault-disjoint refused-disjoint.toml fault plan
shown fault-plan refused-plan.txt fault check
shown fault-capacity refused-capacity.txt fault check
shown fault-weights wheel-3-near.txt fault check
shown fault-record refused-record.txt fault replay
shown fault-script refused-script.txt fault world
shown fault-missing-part wheel-3.toml fault check
shown fault-none wheel-3-planned.txt fault deal 5

# the same of files, which the page names: their parts in one file and in several, in a wrong order, too many, and texts that other
# systems end or begin in another way
sed 's/^cycle .*/cycle 05/' wheel-3.plan > "$work/cycle.plan"
sed 's/^cycle .*/cycle 05/' wheel-3-planned.txt > "$work/planned.txt"
sed 's/$/\r/' wheel-3.plan > "$work/returns.plan"
{ printf '\357\273\277'; cat wheel-3.plan; } > "$work/marked.plan"
sed 's/^load .*/load 2\/3/' wheel-3.plan > "$work/load.plan"
cp wheel-3.plan "$work/wheel.plan"
tail -n +3 wheel-3.plan > "$work/rest.plan"
: > "$work/empty"
cat > "$work/types.toml" << 'END'
# each key has a value of another type
voters = ["a", 1]
quorums = [
  ["a"],
  [
    "b", 2.5 ],
]
capacity = [1, 2.5]
weights = [1]
END
cat > "$work/string.toml" << 'END'
voters = "a, b"
END
printf '[servers]\nvoters = ["a"]\n' > "$work/servers.toml"
printf 'world 2 1\nask 0\ndelivers 0\n' > "$work/script"
# page WORDS..: the words, and what qlock-show writes for them
page() {
    echo "== $*"
    "$show" "$@" 2>&1 || echo "status $?"
}
(
    cd "$work"
    page fault check -f "a coterie.toml" -f cycle.plan
    page fault check -f planned.txt
    page fault check -f "a coterie.toml" -f - < cycle.plan
    page fault check -f "a coterie.toml" -f load.plan
    page fault check -f wheel.plan -f "a coterie.toml"
    page fault check -f "a coterie.toml" -f "a coterie.toml"
    page fault check -f "a coterie.toml" -f script
    page fault world -f planned.txt -f script
    page fault world -f "a coterie.toml" -f wheel.plan -f script
    page fault check -f "a coterie.toml" -f wheel.plan -f wheel.plan
    page fault plan -f wheel.plan -f "a coterie.toml"
    page fault check -f "a coterie.toml"
    page fault check -f "a coterie.toml" -f returns.plan
    page fault check -f "a coterie.toml" -f marked.plan
    page fault check -f "a coterie.toml" -f rest.plan
    page fault check -f "a coterie.toml" -f empty
    page fault plan -f empty
    page fault plan -f types.toml
    page fault plan -f string.toml
    page fault plan -f servers.toml
    page fault plan -f "no such.toml"
) < /dev/null > "$work/pages"
compare "$work/pages" show-fault-files.out

# reports of plans, as HTML that is well-formed XML too
for coterie in wheel-3 wheel-3-fast-hub three-racks; do
    "$qlock" plan < "$coterie.toml" > "$work/plan" || true
    parts "$coterie.toml" "$work/plan" > "$work/input"
    "$show" report < "$work/input" > "$work/report" || true
    if command -v xmllint > /dev/null && ! xmllint --noout "$work/report"; then
        failed=$((failed + 1))
    else
        compare "$work/report" "show-report-$coterie.html"
    fi
done

# weights near the best: their text, which is a plan's if they are one, its check, and the pages that take it in place of a plan
shown near-text-wheel-3 wheel-3.toml near --text
shown near-text-cycle-wheel-3 wheel-3.toml near --cycle 4 --text
shown near-text-wheel-3-fast-hub wheel-3-fast-hub.toml near --cycle 4 --text
"$show" near --text < twenty-eight.toml > "$work/weights" || true
shown check-twenty-eight /dev/null check -f twenty-eight.toml -f "$work/weights"
shown near-down-tree-2 tree-2.toml near --down 1
shown near-down-two-weighted-votes weighted-votes.toml near --down 2
shown near-down-text-weighted-votes weighted-votes.toml near --down 1 --above 5 --text
shown check-wheel-3 wheel-3-planned.txt check
shown check-wheel-3-near wheel-3-near.txt check
shown plan-wheel-3-near wheel-3-near.txt plan
shown deal-wheel-3-near wheel-3-near.txt deal 5
shown deal-names-wheel-3-near wheel-3-near.txt deal --names 5
shown resilience-wheel-3-near wheel-3-near.txt resilience
shown json-plan-wheel-3-near wheel-3-near.txt plan --json
shown json-deal-wheel-3-near wheel-3-near.txt deal 2 --json
for words in report "picture load"; do
    name=$(echo "$words" | tr ' ' '-')
    # shellcheck disable=SC2086
    "$show" $words < wheel-3-near.txt > "$work/page" || true
    if command -v xmllint > /dev/null && ! xmllint --noout "$work/page"; then
        failed=$((failed + 1))
    else
        compare "$work/page" "show-$name-wheel-3-near.xml"
    fi
done
sed 's,^bound .*,bound 6/10,' wheel-3-near.txt > "$work/input"
program=$show
example show-wrong-bound "$work/input" 1 check
program=$qlock

# what is left of a coterie, what it bears, and bridges: from five voters to nine over any seven of nine, and from three centres
# to the two that are left when one fails
shown without-a1 three-racks.toml without a1
shown without-rack three-racks.toml without a1 a2 a3
shown without-none three-racks.toml without b2 a1 a2 b1
shown without-centre three-centres.toml without a1 a2 a3 a4 a5
shown without-most-of-two-centres three-centres.toml without a1 a2 a3 c1 c2
program=$show
example show-unknown-voter three-racks.toml 1 without a1 a9
example show-unknown-code /dev/null 2 explain E9
example show-waiting-of-nobody /dev/null 2 waiting 0
example show-waiting-while-all-are-dead /dev/null 2 waiting 5 --dead 5
example show-unknown-picture /dev/null 2 picture plan
example show-fault-of-no-command /dev/null 2 fault make circle 3
# files that are not read, with the system's reason if it is a common one, and a file without a name
example show-no-such-file /dev/null 3 plan -f wheel-3.toml -f "no such.plan"
example show-folder-as-file /dev/null 3 resilience -f .
example show-file-in-a-file /dev/null 3 resilience -f wheel-3.toml/x
example show-file-without-a-name /dev/null 2 plan -f
# an exchange for a coterie of c alone, which a quorum of the first does not have, and for one of other voters
awk 'parts == 2 { sub(/^  \["a", "b"\]/, "  [\"c\"]") } parts == 3 { sub(/^voter 1 0 0/, "voter 0 0 1") } /^%%$/ { parts++ } 1' \
    world-exchange.txt > "$work/input"
example show-not-bridged "$work/input" 1 world
awk 'parts == 2 { gsub(/"b"/, "\"d\"") } /^%%$/ { parts++ } 1' world-exchange.txt > "$work/input"
example show-other-voters "$work/input" 1 world
program=$qlock
for coterie in three-racks wheel-3 cyclic-7 three-centres; do
    shown "resilience-$coterie" "$coterie.toml" resilience
done
parts three-racks.toml expected/plan-three-racks.out > "$work/input"
shown resilience-of-a-plan "$work/input" resilience

# what planners ask for: coteries of a shape, coteries side by side, and weights where there is no plan
shown coterie-racks /dev/null coterie racks 3 3
shown coterie-centres /dev/null coterie centres 5 5 3 --capacity 2 2 2 2 2 2 2 2 2 2 1 1 1
shown coterie-centres-3-2-3 /dev/null coterie centres 3 2 3
shown coterie-votes /dev/null coterie votes 3 2 2 1 1
shown coterie-any /dev/null coterie any 7 9
shown coterie-any-3-5 /dev/null coterie any 3 5
shown compare /dev/null compare three-racks.toml weighted-votes.toml seven-of-nine.toml
shown compare-with-capacities /dev/null compare wheel-3-fast-hub.toml three-centres.toml
shown compare-in-two-units /dev/null compare wheel-3.toml wheel-3-fast-hub.toml
shown near-wheel-3 wheel-3.toml near
shown near-wheel-3-fast-hub wheel-3-fast-hub.toml near
shown near-twenty-eight twenty-eight.toml near
shown near-deal-twenty-eight twenty-eight.toml near --deal 5
shown near-cycle-twenty-eight twenty-eight.toml near --cycle 20
shown deal-names-wheel-3 wheel-3-planned.txt deal --names 5
shown deal-names-even-wheel-3 wheel-3-planned.txt deal --even --names 5
program=$show
example show-two-of-four /dev/null 1 coterie any 2 4
example show-racks-of-nothing /dev/null 2 coterie racks
example show-too-few-capacities /dev/null 1 coterie votes 3 2 2 1 1 --capacity 1 2
example show-compare-no-such-file /dev/null 3 compare three-racks.toml no-such.toml
example show-compare-a-plan /dev/null 1 compare three-racks.toml wheel-3.plan
# of two files of which one has two parts nobody knows which one is no coterie
example show-compare-two-parts /dev/null 1 compare wheel-3-planned.txt wheel-3.plan
program=$qlock
example no-plan-of-twenty-eight twenty-eight.toml 1 plan

# the same as JSON, which has to be valid
for words in "plan" "deal 5" "deal --even 5"; do
    # shellcheck disable=SC2086
    shown "json-$(echo "$words" | tr -d ' ')-wheel-3" wheel-3-fast-hub-planned.txt $words --json
done
shown json-resilience-three-racks three-racks.toml resilience --json
parts three-racks.toml expected/plan-three-racks.out > "$work/input"
shown json-resilience-of-a-plan "$work/input" resilience --json
shown json-compare /dev/null compare --json three-racks.toml weighted-votes.toml
shown json-near-wheel-3 wheel-3.toml near --json
shown json-near-deal-wheel-3 wheel-3.toml near --deal 2 --json
if command -v python3 > /dev/null; then
    for page in expected/show-json-*.out; do
        if python3 -c 'import json, sys; json.load(sys.stdin)' < "$page"; then passed=$((passed + 1)); else failed=$((failed + 1)); fi
    done
fi
"$qlock" make cyclic 5 0 1 2 > "$work/five"
"$qlock" make cyclic 9 0 1 2 4 > "$work/nine"
parts "$work/five" "$work/nine" > "$work/input"
shown bridge-five-to-nine "$work/input" bridge
parts "$work/five" seven-of-nine.toml > "$work/input"
shown bridge-five-to-seven-of-nine "$work/input" bridge
parts seven-of-nine.toml "$work/nine" > "$work/input"
shown bridge-seven-of-nine-to-nine "$work/input" bridge
"$show" without a1 a2 a3 a4 a5 < three-centres.toml > "$work/left"
shown bridge-three-centres-to-two /dev/null bridge -f three-centres.toml -f "$work/left"

# at a terminal: that the input is read from it, how to see where it is wrong, and why a file was not read
if command -v python3 > /dev/null; then
    {
        "$here/terminal.py" refused-disjoint.toml "$qlock" plan
        "$here/terminal.py" twenty-eight.toml "$qlock" plan
        "$here/terminal.py" wheel-3-near.txt "$qlock" check
        "$here/terminal.py" wheel-3.toml "$show" resilience
        "$here/terminal.py" /dev/null "$qlock" make wheel 2
        "$here/terminal.py" /dev/null "$qlock" make wheel
        "$here/terminal.py" /dev/null "$qlock" check -f wheel-3.toml -f no-such.plan
        "$here/terminal.py" /dev/null "$qlock" plan -f faults
    } > "$work/terminal"
    compare "$work/terminal" terminal.out
fi

# helps NAME PROGRAM: the help of a program and of each command that it lists, where it is printed, and the status
helps() {
    commands=$("$2" --help 2>&1 | sed -n '/^Commands:$/,/^$/s/^  \([a-z]*\) .*/\1/p' | grep -vx help)
    for command in '' $commands; do
        status=0
        # without a command it is the help of the program
        "$2" $command --help > "$work/out" 2> "$work/err" || status=$?
        echo "== ${command:-the program}: status $status"
        cat "$work/out"
        echo '-- on standard error'
        cat "$work/err"
    done > "$work/help"
    compare "$work/help" "$1.out"
}
helps help "$qlock"
helps show-help "$show"

# the version is the newest of CHANGELOG.md; qlock writes what was asked for on standard error, with status 2
version=$(sed -n 's/^## \([0-9.]*\).*/\1/p' "$here/../CHANGELOG.md" | head -n 1)
printf 'qlock-show %s\nqlock %s\n2\n' "$version" "$version" > "$work/wanted"
{
    "$show" --version
    status=0
    "$qlock" --version 2>&1 > /dev/null || status=$?
    echo "$status"
} > "$work/out"
if diff -u "$work/wanted" "$work/out"; then passed=$((passed + 1)); else failed=$((failed + 1)); fi

# the page of all faults: each fault of the list has a heading, once and in order
"$show" explain all > "$work/page"
"$show" explain | cut -d ' ' -f 1,2 > "$work/wanted"
sed -n 's/^### //p' "$work/page" > "$work/out"
if diff -u "$work/wanted" "$work/out"; then passed=$((passed + 1)); else failed=$((failed + 1)); fi

# what the page says of a code: the block below its heading
of_page() {
    awk -v code="$1" '/^### / { here = $2 == code } /^```$/ { inside = !inside; next } here && inside' "$work/page"
}

# of each code the text is that of `explain CODE`: the line of the fault, what it means, an example, and what leads to it
"$show" explain > "$work/list"
while read -r line; do
    code=${line%% *}
    of_page "$code" > "$work/wanted"
    "$show" explain "$code" > "$work/out"
    if diff -u "$work/wanted" "$work/out" && [ "$(head -n 1 "$work/out")" = "$line" ] \
        && [ "$(grep -c -e '^For example:$' -e '^What usually led to it:$' "$work/out")" = 2 ]; then
        passed=$((passed + 1))
    else
        echo "explain $code: not what the page says, or a part is missing" >&2
        failed=$((failed + 1))
    fi
done < "$work/list"

# of each line CODE NAME ARGUMENTS.. the code, the name and the number of arguments
shapes() {
    awk '{ print $1, $2, NF - 2 }' | sort -u
}

# each fault is in the tests, and none else but those of calls, which no command prints: in the tables of
# crates/test_texts/src/faults.rt, or for a wrong command line in an example
CALLS='B1|K1|K3|K4|L1|L2|M1|Q1|Q2|U5|U6|U7'
"$show" explain | shapes > "$work/listed"
{
    grep -o '"[A-Z][0-9]* [^"]*"' "$here/../crates/test_texts/src/faults.rt" | tr -d '"' | grep -vE "^($CALLS) "
    cat "$here/expected/grid-of-one-number.err"
} | shapes > "$work/tested"
if diff -u "$work/tested" "$work/listed"; then passed=$((passed + 1)); else failed=$((failed + 1)); fi

# the completions have the codes of all faults, in their order
"$show" explain | cut -d ' ' -f 1 > "$work/wanted"
for completion in _qlock-show qlock-show.bash; do
    sed -n '/codes=[("]/,/[)"]$/p' "$here/../completions/$completion" | grep -o '[A-Z][0-9][0-9]*' > "$work/out"
    if diff -u "$work/wanted" "$work/out"; then passed=$((passed + 1)); else failed=$((failed + 1)); fi
done

# irregular VOTERS COUNT: a coterie of as many sets, each of one voter more than half of them, as numbers that follow one another
# in a simple generator choose them
irregular() {
    awk -v voters="$1" -v count="$2" 'BEGIN {
        for (i = 0; i < voters; i++) list = list (i ? ", " : "") "\"v" i "\""
        print "voters = [" list "]\nquorums = ["
        number = 1
        for (j = 0; j < count; j++) {
            left = int(voters / 2) + 1
            list = ""
            for (i = 0; i < voters; i++) {
                number = number * 16807 % 2147483647
                if (number % (voters - i) < left) { list = list (list ? ", " : "") "\"v" i "\""; left-- }
            }
            print "  [" list "],"
        }
        print "]"
    }'
}

# an input for each fault that a text can have: faults/CODE.COMMAND is refused by this command with this code; further ones are
# CODE-WORD.COMMAND. Those that are long are made here: too many quorums, two coteries without a plan, a coterie that ends in its
# millionth line, and a record with 50,000 tickets of which one is drawn twice
mkdir "$work/made"
awk 'BEGIN { print "voters = [\"a\", \"b\", \"c\"]\nquorums = ["; for (j = 0; j < 4097; j++) print "  [\"a\"],"; print "]" }' \
    > "$work/made/E4.plan"
irregular 32 40 > "$work/made/N1-sums.plan"
irregular 56 100 > "$work/made/N1-bits.plan"
{ yes '# a note' | head -n 999999; echo 'voters = ["a"'; } > "$work/made/F1-long.plan"
{
    cat wheel-3-planned.txt
    echo %%
    awk 'BEGIN {
        print "quorum-record 1"
        for (ticket = 0; ticket < 50000; ticket++) print "draw 0 " (ticket == 40000 ? 30000 : ticket) " 0"
        print "register 0"
    }'
} > "$work/made/A1-long.replay"
for input in faults/* "$work"/made/*; do
    name=$(basename "$input")
    echo "== $name"
    "$show" fault "${name#*.}" < "$input" || echo "status $?"
done > "$work/faults"
compare "$work/faults" show-faults.out

# and sizes of shapes for which there is no coterie
for words in 'grid 1 3' 'grid 9 9' 'grid 8 9' 'majority 0' 'majority 15' 'tree 4' 'wheel 1' 'wheel 64' \
    'cyclic 7 0 7' 'cyclic 7 0 9 8' 'cyclic 7 0 0' 'cyclic 7 0 3 5 3' 'cyclic 7' 'cyclic 7 0 1' 'cyclic 4 0 2' 'cyclic 2 0 1' \
    'cyclic 65 0' 'cyclic 0 0'; do
    echo "== $words"
    # the words of a shape are apart
    "$show" fault make $words || echo "status $?"
done > "$work/shapes"
compare "$work/shapes" show-fault-shapes.out

# pictures
mkdir "$work/pictures"
"$pictures/make.sh" "$work/pictures"
for picture in "$work"/pictures/*.svg; do
    name=$(basename "$picture")
    if command -v xmllint > /dev/null && ! xmllint --noout "$picture"; then
        failed=$((failed + 1))
    elif [ "$write" = --write ]; then
        cp "$picture" "$pictures/$name"
    elif cmp "$pictures/$name" "$picture"; then
        passed=$((passed + 1))
    else
        failed=$((failed + 1))
    fi
done

[ "$write" = --write ] || echo "$passed examples print what they should, $failed do not"
[ "$failed" -eq 0 ]
