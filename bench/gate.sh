#!/bin/sh
# Runs the gate, a plain `rt ci`, keeps the program that it proved for ./cacao, and ends with the gate's status.
top=$(dirname "$(dirname "$(readlink -f "$0")")")
. "$top/bench/launcher_parts/program.sh"
cd "$top" || exit
before_gate
rt ci || exit
after_gate
