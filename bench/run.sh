#!/usr/bin/env bash
# Times the reader alone over 50 MB in pieces of several lengths, and the program over scripts of 1 to 50 MB, read
# from a file: processor seconds, megabytes a second and peak memory in KB. Then the families of memberships, with z3 and
# cvc5 beside the program where they are installed, and the checker on the proofs; a run has 20 seconds, so this takes
# some minutes. Then the search over clauses alone, with minisat beside it where it is installed. At the end rounds of
# clauses that come and go, and the search over larger families; where there is a C++ compiler with a small solver with
# array watches beside it, and with minisat.
set -eu
cd "$(dirname "$0")/.."
build() { # the program, and what it is run on
  if [ ! -x "crates/$1/out/$1" ]; then
    (cd "crates/$1" && rt run ${2:+-- $2} < "$(test -f stdin && echo stdin || echo /dev/null)" > /dev/null 2>&1)
  fi
}
build read_entries 7
build solve_clauses search
build strsolve
build strcheck "data/apart.smt2 data/apart.proof"
work=$(mktemp -d)
trap 'rm -rf "$work"' EXIT

printf '%-14s %10s %12s %10s %10s %10s\n' case bytes how seconds MB/s peak_KB
for kind in mixed form; do
  python3 bench/generate.py "$kind" 50 > "$work/$kind.smt2"
  for piece in whole 4096 1; do
    python3 bench/measure.py "$kind" "$work/$kind.smt2" "piece $piece" crates/read_entries/out/read_entries "$piece" < "$work/$kind.smt2"
  done
done
for megabytes in 1 10 50; do
  for kind in mixed memberships checks form definitions; do
    python3 bench/generate.py "$kind" "$megabytes" > "$work/$kind.smt2"
    python3 bench/measure.py "$kind" "$work/$kind.smt2" strsolve crates/strsolve/out/strsolve < "$work/$kind.smt2"
  done
done

echo
python3 bench/compare.py

echo
python3 bench/clauses.py

echo
clauses() { # a row: its name, the file, what is run, and its words
  python3 bench/measure.py "$1" "$2" "$3" "${@:4}" < "$2"
}
solver=crates/solve_clauses/out/solve_clauses
for rounds in 10000 20000 40000; do
  clauses "rounds $rounds" /dev/null solve_clauses "$solver" rounds "$rounds"
done
if command -v c++ > /dev/null; then
  c++ -O2 -o "$work/reference" bench/reference.cpp
fi
for family in 'free 100000 order' 'forcing 20000 order' 'binary 200000 order' 'binary 1000000 order' \
  'units 100000 order' 'random 210 active' 'random 230 active' 'pigeons 8 active'; do
  read -r kind size how <<< "$family"
  python3 bench/cnf.py "$kind" "$size" > "$work/$kind.cnf"
  clauses "$kind $size" "$work/$kind.cnf" solve_clauses "$solver" search
  if [ -x "$work/reference" ]; then
    clauses "$kind $size" "$work/$kind.cnf" reference "$work/reference" "$how"
  fi
  if command -v minisat > /dev/null; then
    clauses "$kind $size" "$work/$kind.cnf" minisat bash -c "minisat -verb=0; true"
  fi
done
