#!/usr/bin/env bash
# Tries the wrong bodies that the gate only keeps to be read (crates/NAME/must-fail/*.md), in a copy of the last commit:
# the prover must refuse each. Names of crates may be given; else all that have such files are tried.
set -eu
top=$(cd "$(dirname "$0")/.." && pwd)
copy=$(mktemp -d)
trap 'rm -rf "$copy"' EXIT
git -C "$top" archive HEAD | tar -x -C "$copy"
names=()
for folder in "$copy"/crates/*/must-fail; do
  name=$(basename "$(dirname "$folder")")
  if [ $# -gt 0 ] && [[ " $* " != *" $name "* ]]; then continue; fi
  kept=("$folder"/*.md)
  if [ ! -e "${kept[0]}" ]; then continue; fi
  for file in "${kept[@]}"; do mv "$file" "${file%.md}.edit"; done
  names+=("$name")
done
cd "$copy"
rt must-fail "${names[@]}"
