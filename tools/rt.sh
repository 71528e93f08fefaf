#!/usr/bin/env bash
# rt.sh CRATE COMMAND: runs rt in the crate's folder; a program that it runs gets the crate's stdin, and what it prints is not shown.
set -eu
cd "$(dirname "$0")/../crates/$1"
if [ "$2" = run ]; then rt run < stdin 2>&1 > /dev/null; else rt "$2"; fi
