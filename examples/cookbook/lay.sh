#!/bin/sh
# lay.sh NAME: lays out a design of the cookbook, makes its picture, and shows its sizes, what check says, and its nets.
# It runs at the top of the repository, and takes bin/sticks, or the program that STICKS names: STICKS=bin/try.
sticks=${STICKS:-bin/sticks} design=examples/cookbook/$1.sticks tech=examples/nmos.toml
"$sticks" compact "$design" --tech "$tech" >"$1.cif" 2>"$1.report" || { cat "$1.report" && exit 1; }
grep ' size ' "$1.report"
bin/picture "$1.cif" "$1.svg" --design "$design" --report "$1.report"
"$sticks" check "$1.cif" --tech "$tech" && "$sticks" extract "$1.cif" --tech "$tech"
