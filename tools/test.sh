#!/usr/bin/env bash
# The gate: proofs, layout and must-fail edits, then every program beside them, from nothing.
# Each step says 'N passed, M failed'; the last line adds them up, and says no where a step did.
set -u -o pipefail
cd "$(dirname "$0")/.."
passed=0
failed=0
outputs=$(mktemp -d)
trap 'kill $(jobs -rp) 2> /dev/null; rm -rf "$outputs"' EXIT

# count WHAT STATUS OUTPUT: counts the last verdict of a step's output; a status other than 0 fails.
count() {
    local last
    last=$(grep -E '^[0-9]+ passed, [0-9]+ failed$' "$3" | tail -n 1)
    if [[ $last =~ ^([0-9]+)\ passed,\ ([0-9]+)\ failed$ ]]; then
        passed=$((passed + BASH_REMATCH[1]))
        failed=$((failed + BASH_REMATCH[2]))
        [ "$2" -eq 0 ] || [ "${BASH_REMATCH[2]}" -gt 0 ] || failed=$((failed + 1))
    else
        failed=$((failed + 1))
        echo "$1: no verdict (status $2)"
    fi
}

# step WHAT COMMAND..: runs the command, shows what it prints, and counts its verdict.
step() {
    echo "== $1"
    "${@:2}" 2>&1 | tee "$outputs/step"
    count "$1" $? "$outputs/step"
}

# beside WHAT TARGET: the same for a target of make that only runs, two at a time; `show` shows what it printed. Its status stands in a file, since the shell forgets that of a process whose number is used again.
whats=() shown=0
beside() {
    while [ "$(jobs -rp | wc -l)" -ge 2 ]; do
        sleep 0.2
        show
    done
    local output=$outputs/${#whats[@]}
    whats+=("$1")
    {
        make --no-print-directory "$2" > "$output" 2>&1
        echo $? > "$output.status"
    } &
}

# Shows and counts the targets that are done, each whole, in the order in which they were started.
show() {
    while [ "$shown" -lt "${#whats[@]}" ] && [ -s "$outputs/$shown.status" ]; do
        echo "== ${whats[shown]}"
        cat "$outputs/$shown"
        count "${whats[shown]}" "$(cat "$outputs/$shown.status")" "$outputs/$shown"
        shown=$((shown + 1))
    done
}

# rt ci passes a must-fail edit that it can't apply, and counts it as bad: that fails here.
proofs() {
    rt ci | tee "$outputs/proofs"
    local status=${PIPESTATUS[0]}
    if grep -qE '^rt: ok.*, [1-9][0-9]* bad' "$outputs/proofs"; then
        echo "0 passed, 1 failed"
        return 1
    fi
    return "$status"
}

step "counts of underscores" tools/byte_counts.sh
step "proofs and must-fail edits" proofs
make --no-print-directory ready
beside "tables: the other program" compare
beside "recipes: the other program" recipes
beside "walks back: the other program" origins
beside "recipes: memory" memory-recipes
beside "walks back: memory" memory-origins
beside "the solver: memory" memory-solver
beside "the printing program" program
beside "the solver, in C" solver
beside "stack" stack
while [ "$shown" -lt "${#whats[@]}" ]; do
    sleep 0.2
    show
done
echo "$passed passed, $failed failed"
[ "$failed" -eq 0 ] && [ "$passed" -gt 0 ]
