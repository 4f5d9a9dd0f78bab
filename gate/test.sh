#!/bin/sh
# The gate: `rt ci`, the checks of edits and of the gate's own tools, and then, beside one another, runs of the built program, runs of it that are refused
# memory, and the library for C. Each part ends in a line 'N passed, M failed'; the last line here is their sum.
# usage: gate/test.sh      at the top of the repository
set -u
logs=$(mktemp -d)
trap 'rm -rf "$logs"' EXIT
passed=0 failed=0

# runs one part
run() {
    name=$1
    shift
    "$@" 2>&1
    echo $? > "$logs/$name.status"
}

# adds what the last line of a part counts; a part without such a line has failed
tally() {
    name=$1
    counts=$(tail -n 1 "$logs/$name" | sed -n 's/^\([0-9][0-9]*\) passed, \([0-9][0-9]*\) failed$/\1 \2/p')
    if [ -z "$counts" ]; then
        failed=$((failed + 1))
        return
    fi
    passed=$((passed + ${counts% *}))
    failed=$((failed + ${counts#* }))
    if [ "$(cat "$logs/$name.status")" -ne 0 ] && [ "${counts#* }" -eq 0 ]; then failed=$((failed + 1)); fi
}

# runs one part, shows what it prints, and adds what it counts
part() {
    run "$@" | tee "$logs/$1"
    tally "$1"
}

# shows what parts printed that ran beside another, and adds what they count
gather() {
    wait
    for name in "$@"; do
        cat "$logs/$name"
        tally "$name"
    done
}

part edits gate/wrong.py --applies
part selftest gate/selftest.py
before=$(gate/build.py --before)
part ci rt ci
gate/build.py --after "$before"
run program gate/program.py crates/ntns/out/ntns > "$logs/program" &
run cases gate/cases.py crates/ntns/out/ntns crates/callers/out/callers > "$logs/cases" &
run refusals gate/refusals.py crates/ntns/out/ntns --steps crates/callers/out/callers --viewers crates/viewers/out/viewers > "$logs/refusals" &
part c gate/c.py
gather program cases refusals

# a run is long, and only its end may be on record: the lines of what failed are repeated there
if [ "$failed" -ne 0 ]; then
    cat "$logs"/edits "$logs"/selftest "$logs"/ci "$logs"/program "$logs"/cases "$logs"/refusals "$logs"/c 2> /dev/null | grep -E '(^|[^0-9])error|[Ff]ailed|FAILED|not proved|NOT PROVED|refused:' | tail -n 100
fi
echo "$passed passed, $failed failed"
[ "$failed" -eq 0 ]
