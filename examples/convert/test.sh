#!/usr/bin/env bash
# Has examples/convert.py write out each NAME.yml of the folder cases, with the words of NAME.args, and compares what it prints with NAME.stdout and
# NAME.stderr and how it ends with NAME.status (0 where there is none). What ended with 0 has to be a file that the program takes. And the examples
# of docs/CONVERTING.md have to be answered as they say. Then come the files of the folder files, and the tests of test_convert.py.
#
#   examples/convert/test.sh [CISERVER]        as in: examples/convert/test.sh bin/ciserver
#
# It ends with 0 where all passed. It wants python3 with python3-yaml, and bash.
set -u
ciserver=$(realpath "${1-$(dirname "$0")/../../bin/ciserver}")
cd "$(dirname "$0")/cases" || exit 1
if [ ! -x "$ciserver" ]; then
  echo "there is no bin/ciserver: make build" >&2
  exit 1
fi
work=$(mktemp -d)
trap 'rm -rf "$work"' EXIT
passed=0
failed=0
# is WHAT STATUS STDOUT STDERR ENDED: the run that left its output in $work ended so, and printed what these two files hold.
is() {
  if [ "$5" = "$2" ] && cmp -s "$3" "$work/stdout" && cmp -s "$4" "$work/stderr"; then
    passed=$((passed + 1))
  else
    failed=$((failed + 1))
    echo "$1: $5, and not $2"
    diff -u "$3" "$work/stdout"
    diff -u "$4" "$work/stderr"
  fi
}
for file in *.yml; do
  name=${file%.yml}
  words=()
  if [ -e "$name.args" ]; then read -r -a words < "$name.args"; fi
  wanted=0
  if [ -e "$name.status" ]; then wanted=$(< "$name.status"); fi
  python3 ../../convert.py "${words[@]}" "$file" > "$work/stdout" 2> "$work/stderr"
  is "$file" "$wanted" "$name.stdout" "$name.stderr" "$?"
  if [ "$wanted" = 0 ]; then
    said=$("$ciserver" check "$name.stdout" 2>&1)
    ended=$?
    if [ "$ended" = 0 ]; then
      passed=$((passed + 1))
    else
      failed=$((failed + 1))
      echo "$name.stdout isn't taken: $ended $said"
    fi
  fi
done
# ends STATUS WORD..: a run with these words prints no file, and ends so.
ends() {
  python3 ../../convert.py "${@:2}" > "$work/stdout" 2> "$work/said" < starter.yml
  ended=$?
  if [ "$ended" = "$1" ] && [ ! -s "$work/stdout" ] && [ -s "$work/said" ]; then
    passed=$((passed + 1))
  else
    failed=$((failed + 1))
    echo "words '${*:2}': $ended, and not $1"
  fi
}
ends 2
ends 2 starter.yml other.yml
ends 2 --fast starter.yml
ends 2 --set 1A=x starter.yml
ends 2 --set A starter.yml
ends 3 nothing.yml
ends 3 .
# The same from standard input, and from another folder.
python3 ../../convert.py - < starter.yml > "$work/stdout" 2> "$work/stderr"
ended=$?
sed 's/^starter.yml:/-:/' starter.stderr > "$work/wanted"
is 'standard input' 0 starter.stdout "$work/wanted" "$ended"
# A file that is too long, written out: what stands in several scripts stands once, and the file is taken.
awk 'BEGIN {
  for (i = 1; i <= 75; i++) {
    printf "job%d:\n  script:\n", i
    for (j = 1; j <= 20; j++) printf "    - echo a line that stands in each of these scripts, number %d of it\n", j
    printf "    - echo %d\n", i
  }
}' > "$work/repeated.yml"
python3 ../../convert.py "$work/repeated.yml" > "$work/stdout" 2> "$work/said"
said=$("$ciserver" check "$work/stdout" 2>&1)
if [ "$said" = "jobs: 75" ] && grep -q 'is in variables now' "$work/said"; then
  passed=$((passed + 1))
else
  failed=$((failed + 1))
  echo "a long file is told as '$said':"
  cat "$work/said"
fi
# The last line of each example of docs/CONVERTING.md is what the program prints of it.
awk -v at="$work/example" '/^```yaml$/ { file = sprintf("%s%03d.yml", at, ++n); inside = 1; next } /^```$/ { inside = 0 } inside { print > file }' \
  ../../../docs/CONVERTING.md
for example in "$work"/example*.yml; do
  said="# $("$ciserver" check "$example" 2>&1)"
  if [ "$said" = "$(tail -n 1 "$example")" ]; then
    passed=$((passed + 1))
  else
    failed=$((failed + 1))
    echo "an example of docs/CONVERTING.md is told as '$said':"
    cat "$example"
  fi
done
# The files in the manner of real ones, each with the jobs that it is to have.
../files/count.sh "$ciserver" > "$work/count"
read -r files _ right <<< "$(sed -nE 's/^([0-9]+) files: (.*), ([0-9]+) as they are to be$/\1 - \3/p' "$work/count")"
if [ "${files:-0}" = 0 ] || [ "$files" != "$right" ]; then
  cat "$work/count"
  files=$((${files:-0} > 0 ? files : 1))
fi
passed=$((passed + ${right:-0}))
failed=$((failed + files - ${right:-0}))
# The tests of test_convert.py: what the written scripts do in a shell, and what the parts of convert.py answer.
(cd .. && python3 -m unittest test_convert) 2> "$work/tests"
ran=$(sed -n 's/^Ran \([0-9]*\) tests* .*/\1/p' "$work/tests")
wrong=0
if ! grep -q '^OK$' "$work/tests"; then
  wrong=$(($(grep -oE '(failures|errors)=[0-9]+' "$work/tests" | sed 's/.*=/+/' | tr -d '\n') + 0))
  wrong=$((wrong > 0 ? wrong : 1))
  cat "$work/tests"
fi
passed=$((passed + ${ran:-0} - wrong))
failed=$((failed + wrong))
echo "$passed passed, $failed failed"
[ "$failed" = 0 ]
