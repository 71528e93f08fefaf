#!/usr/bin/env bash
# progress.sh LOG COMMAND..: runs the command, keeps what it prints in LOG, and shows a line for each crate as it is proved; where it fails, all of LOG.
set -u
log=$1
shift
"$@" 2>&1 | tee "$log" | grep --line-buffered '^rt: ' >&2
status=${PIPESTATUS[0]}
[ "$status" -eq 0 ] || cat "$log" >&2
exit "$status"
