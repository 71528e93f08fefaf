#!/usr/bin/env bash
# try.sh STDIN STDOUT: runs the printing program's source on the bytes of STDIN, unproved, shows what it prints, and compares with STDOUT.
set -eu
stdin=$(realpath "$1")
stdout=$(realpath "$2")
cd "$(dirname "$0")/.."
echo "UNPROVED: the program's source is interpreted and compiled; nothing is proved by that (make run proves it)" >&2
(cd crates/bandrolt && rt try < "$stdin") > target/tried 2> target/try.log || {
    cat target/try.log >&2
    exit 1
}
cat target/tried
cmp target/tried "$stdout"
