#!/usr/bin/env bash
# Runs the program with the words, the standard streams and the status passed through.
#
#   ./m3 WORD.. < INPUT        Where it isn't built yet, tools/build_crates proves and builds it first, says on standard error how far it is, and
#                              then becomes the program. Where its sources changed since it was built, that is said on standard error.
#   ./m3 try WORD.. < INPUT    Runs the same sources compiled with checks and not proved, by tools/try_program: one run of at most 60 seconds, whose
#                              output, of at most 1 MiB, comes at its end. Status 127: there is no answer, and standard error says why.
set -u
top=$(cd "$(dirname "${BASH_SOURCE[0]}")" && pwd)
program=$top/crates/m3/out/m3

# What is said of the run goes to a file, of which only what the program said is passed on where that ended.
try_unproved() {
  local said ended
  echo "m3: not proved: this answer comes from the same source, compiled with checks; ./m3${*:+ $*} proves that source first" >&2
  said=$(mktemp) || exit 127
  [ "${1-}" = run ] || exec </dev/null
  "$top/tools/try_program" "$@" 2>"$said"
  ended=$(sed -n 's/^run=ended status=\([0-9]*\) .*/\1/p' "$said" | tail -n 1)
  if [ -n "$ended" ]; then
    grep -v -e '^checked: ' -e '^interpreter: ' -e '^races: ' -e '^run=ended ' "$said" >&2
  else
    cat "$said" >&2
    echo "m3: there is no answer: above is what the toolchain says" >&2
  fi
  rm -f "$said"
  exit "${ended:-127}"
}

# A look at times first, since sums of all sources take longer than most scripts. Of a program that rt built no sums are kept.
tell_change() {
  local sum=$program.sum
  if [ -e "$sum" ] && [ ! "$program" -nt "$sum" ] &&
    [ -n "$(find "$top/crates" "$top/crates.txt" -name out -prune -o -type f -newer "$sum" -print -quit)" ]; then
    "$top/tools/build_crates" --changed m3
  fi
}

if [ "${1-}" = try ]; then
  shift
  try_unproved "$@"
fi
if [ ! -x "$program" ]; then
  echo "m3: a first answer without proofs takes minutes: ./m3 try $*" >&2
  exec "$top/tools/build_crates" m3 -- "$program" "$@"
fi
tell_change
exec "$program" "$@"
