#!/usr/bin/env bash
# How many places of each point of docs/DESIGN-PASS.md stand in src/, in code and not in comments. With a count's name, the places themselves.
#   tools/places.sh           the counts
#   tools/places.sh whiles    the lines that one of them counts
set -eu
cd "$(dirname "$0")/.."
code() {
  local file
  for file in crates/*/src/*.rt; do sed -E 's@(^|[[:space:]])//.*@@' "$file" | grep -nE -- "$1" | sed "s@^@${file#crates/}:@" || true; done
}
bodies() { code "$1" | grep -vE '^[^:]*:[0-9]+: *(ghost|requires|ensures)' || true; }
count() {
  local name=$1 lines=$2
  if [ "${only:-}" = "$name" ]; then echo "$lines"; elif [ -z "${only:-}" ]; then printf '%-24s %s\n' "$name" "$(printf '%s' "$lines" | grep -c '' || true)"; fi
}
only=${1:-}
# 1. an enum of our own; a bool field; a number field of an answer; a refusal, a kind or class, and "none" told by a number
count enums "$(bodies '^ *(pub )?enum ')"
count bool-fields "$(bodies '^ +(pub )?[a-z_]+: bool,')"
count number-fields "$(bodies '^ +(pub )?number: u64,')"
count refusals-by-number "$(bodies '\b(refuse|refused|refusal)\([0-9a-z]+, |number [!=]= 0')"
count kinds-by-number "$(bodies '(\b[kcb]|\bclass|\[[^]]*\]) [=!]= [1-9]|^ +[1-9]( \| [1-9])* =>|kind: [1-9]')"
count none-by-number "$(bodies '\b[a-z_]+(\([^()]*\))? [=!]= 0\b')"
# 3. a loop with a test of its own; a number raised or lowered by one
count whiles "$(bodies '^ *while ')"
count counted-by-hand "$(bodies '^ *[a-z_]+ [-+]= 1;')"
# 4. a function that copies, compares or converts by hand
count copies "$(bodies '\bfn (put_bytes|copy|copy_row|copy_sites|put_same|put_zeros)\b')"
count comparisons "$(bodies '\bfn (is_same|comes_before|eight_same|same_by_eight|common|higher|larger|is_blank_from|is_blank)\b')"
count conversions "$(bodies '\bfn (refused|refusal|refuse|answer|walk_answer|plant_answer|wide)\b')"
# 5. a function that takes a recipe as two parameters; a clause that joins them
count bytes-and-width "$(code '\bs: &.?[a-z]* ?\[u8\], w: usize|^ +s: &\[u8\],$')"
count joined-in-clauses "$(code 'recipe_at w s')"
# 6. a table or buffer with a length, or a second table, beside it
count lengths-beside "$(code '\b(elems|insts|n|at): usize[,)]')"
count parallel-tables "$(code '\b(keys|len): &(mut )?\[u(16|32)\],')"
# 7. a match whose arms call a step each
count step-matches "$(bodies '=> link_')"
