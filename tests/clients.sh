#!/usr/bin/env bash
# Runs the clients of examples/clients/ over the pipe of a built program, each if its language is there.
#
# usage: clients.sh PROGRAM
# Ends with status 0 if each does what it should, and else with another; says `skipped` if there is no such program.
set -eu
program=${1:?usage: clients.sh PROGRAM}
if [ ! -x "$program" ]; then
    echo "skipped: $program is not there"
    exit 0
fi
program=$(realpath "$program")
cd "$(dirname "$0")/../examples/clients"
if command -v python3 >/dev/null; then
    PYTHONDONTWRITEBYTECODE=1 python3 try.py "$program"
else
    echo 'skipped: resb.py: python3 is not there'
fi
if command -v node >/dev/null; then
    node try.mjs "$program"
else
    echo 'skipped: resb.mjs: node is not there'
fi
