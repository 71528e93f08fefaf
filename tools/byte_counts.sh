#!/usr/bin/env bash
# Paper 3: no count of underscores in flat_names is wider than a byte. Rattle converts nothing by itself, so it is enough that each function that
# answers or takes a count says u8, and that two conversions are left, where they are written and where a prefix is measured. A line that is gone or written otherwise fails.
set -u
cd "$(dirname "$0")/.."
source=crates/flat_names/src/lib.rt
passed=0
failed=0

# lines COUNT PATTERN: that many lines of the source, kinds as bytes left out, fit the pattern.
lines() {
    local found
    found=$(sed -E 's/Kind::[A-Z][A-Za-z]* as u8//g' "$source" | grep -cE "$2")
    if [ "$found" -eq "$1" ]; then passed=$((passed + 1)); else
        failed=$((failed + 1))
        echo "$source: $found lines, not $1, fit: $2"
    fi
}

lines 1 '^pub fn count_underscores\(.*\) -> u8$'
lines 1 '^fn run_behind\(.*\) -> u8$'
lines 1 '^fn raise_count\(.*, u: u8\) -> u8$'
lines 1 '^pub fn fewest_underscores\(.*\) -> u8$'
lines 1 '^fn put_underscores\(.*, u: u8\) -> usize$'
# The only conversions but for those of kinds: the count's two, and those of the length of a row and of prefixes alone.
lines 4 ' as [ui](8|16|32|64|128|size)'
lines 1 '^    let end = at \+ u as usize;$'
lines 1 '^    name_length\(s, m\) \+ fewest_underscores\(s, t, m\) as usize$'
lines 1 '^        len\[i\] = r as u16;$'
echo "$passed passed, $failed failed"
[ "$failed" -eq 0 ]
