# shellcheck shell=bash
# Counts what passed and what failed, for ./check and the tools that look at many things or play other tools.

passed=0 failed=0

# Counts a thing that was looked at: what it is, and whether it is so.
count() {
    if "${@:2}"; then
        passed=$((passed + 1))
    else
        failed=$((failed + 1))
        echo "${0##*/}: NOT SO: $1"
    fi
}

# How many passed and failed, by the last line of a run's log; nothing where the run did not come to its end.
counts_of() {
    local line
    line=$(tail -n 1 -- "$1")
    if [[ $line =~ ^([0-9]+)\ passed,\ ([0-9]+)\ failed ]]; then
        echo "${BASH_REMATCH[1]} ${BASH_REMATCH[2]}"
    elif [[ $line =~ ^([0-9]+)\ of\ ([0-9]+)$ ]]; then
        echo "${BASH_REMATCH[1]} $((BASH_REMATCH[2] - BASH_REMATCH[1]))"
    else
        return 1
    fi
}

# Adds the counts of a run's log; a run that did not come to its end failed.
add() {
    local counts
    counts=$(counts_of "$1") || counts='0 1'
    passed=$((passed + ${counts% *})) failed=$((failed + ${counts#* }))
}
