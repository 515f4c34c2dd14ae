#!/bin/sh
# Runs the examples through the gateway, as `rt try` makes it from the sources, so that nothing has to be built before.
# Of every examples/*.txt what is answered is compared with the *.out beside it; what is said of each refusal on standard
# error is left out. Then every examples/stops/*.txt, which has a line that stops the program: its answers are compared
# with the *.out, its messages with the *.err, and its status has to be 1.
cd "$(dirname "$0")/.." || exit 1
top=$PWD
status=0
answers=$(mktemp)
errors=$(mktemp)
trap 'rm -f "$answers" "$errors"' EXIT

# the gateway on a script, which is given by the name of its file: its answers, its messages and its status
run() {
    name=${1##*/}
    (cd crates/gateway && rt try --data "$name=$top/$1" -- "$name") > "$answers" 2> "$errors" < /dev/null
}

# the messages, without what rt says, and with the script named as from here
messages() {
    grep -vE '^(run=|checked: |interpreted: )' "$errors" | sed "s#^${1##*/}:#$1:#"
}

# says whether an example went as expected, by the status of the comparison
tell() {
    if [ "$1" -eq 0 ]; then
        echo "$2: as expected"
    else
        echo "$2: it answers otherwise than expected" >&2
        status=1
    fi
}

for script in examples/*.txt; do
    run "$script"
    [ $? -eq 0 ] && diff "${script%.txt}.out" "$answers" > /dev/null
    tell $? "$script"
done
for script in examples/stops/*.txt; do
    run "$script"
    [ $? -eq 1 ] && diff "${script%.txt}.out" "$answers" > /dev/null && messages "$script" | diff "${script%.txt}.err" - > /dev/null
    tell $? "$script"
done
exit $status
