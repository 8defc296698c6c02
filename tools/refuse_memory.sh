#!/usr/bin/env bash
# Runs the built program on one file again and again, each time with one request for memory refused: the first, the
# second, and so on, until a run makes fewer requests and ends with status 0. Each run before must end with status 6,
# with nothing on standard error and, on standard output, a part of the report from its beginning. It proves nothing;
# rt ci does not run it.
cd "$(dirname "$0")/../examples" || exit 1
program=${1:-../crates/jesc/out/jesc}
folder=$(mktemp -d)
trap 'rm -rf "$folder"' EXIT
cc -shared -fPIC -O1 -o "$folder/refuse.so" ../tools/refuse_memory.c -ldl || exit 1
report=$("$program" --esc Up.java; echo .)
for number in $(seq 1 100000); do
  out=$(FAIL_AT=$number LD_PRELOAD="$folder/refuse.so" "$program" --esc Up.java 2>"$folder/err"; echo ".$?")
  status=${out##*.}
  out=${out%.*}
  if [ "$status" -eq 0 ]; then echo "$((number - 1)) requests, each refused once: status 6"; exit 0; fi
  if [ "$status" -ne 6 ] || [ -s "$folder/err" ] || [ "${report#"$out"}" = "$report" -a -n "$out" ]; then
    echo "request $number refused: status $status"; exit 1
  fi
done
exit 1
