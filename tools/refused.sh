#!/usr/bin/env bash
# Tries the programs that the types of a follower refuse. Each edit of tools/refused is applied to a copy of a crate that uses the follower rightly;
# the unchanged copy has to be read and its tests to pass, and each edited one to be refused with the error that its edit names.
# `rt try` reads and runs a crate without its proofs, so nothing below it has to be proved first: types refuse before the prover is reached.
set -u
root=$(cd "$(dirname "$0")/.." && pwd) || exit 1
folder=$(mktemp -d) || exit 1
trap 'rm -rf "$folder"' EXIT

cp "$root/crates.txt" "$folder" || exit 1
mkdir "$folder/crates" || exit 1
for crate in "$root"/crates/*/; do
  name=$(basename "$crate")
  mkdir "$folder/crates/$name" && cp -r "$crate"/[!om]* "$folder/crates/$name" || exit 1
done

# The value of a line of an edit.
field() { sed -n "s/^$2: //p" "$1"; }

# Whether the tests of a crate of the copy pass; what was said is kept.
tried() { said=$(cd "$folder/crates/$1" && rt try --test 2>&1) && [[ $said == *"run=ended status=0"* ]]; }

failed=0
tries=0
for edit in "$root"/tools/refused/*.edit; do
  tries=$((tries + 1))
  file=$(field "$edit" file)
  old=$(field "$edit" old)
  new=$(field "$edit" new)
  error=$(field "$edit" error)
  crate=${file#crates/}
  crate=${crate%%/*}
  if ! tried "$crate"; then
    echo "refused: $crate does not pass unchanged: $said"
    failed=1
    continue
  fi
  text=$(cat "$folder/$file")
  if [ "$(grep -cF -- "$old" "$folder/$file")" -ne 1 ]; then
    echo "refused: $(basename "$edit"): its old text is not there once"
    failed=1
    continue
  fi
  printf '%s\n' "${text/"$old"/"$new"}" > "$folder/$file"
  if tried "$crate" || [[ $said != *"$error"* ]]; then
    echo "refused: $(basename "$edit"): not refused as meant: $said"
    failed=1
  else
    echo "refused: $(basename "$edit"): refused, as it must be"
  fi
  printf '%s\n' "$text" > "$folder/$file"
done
if [ "$tries" -eq 0 ]; then
  echo "refused: no program to try"
  failed=1
fi
exit "$failed"
