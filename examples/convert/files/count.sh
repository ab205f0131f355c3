#!/usr/bin/env bash
# Writes out each CI file of this folder, and looks at what comes of it: whether it is written, whether the program takes it, and which jobs a pipeline
# of the branch main would have, as the line `# jobs on main:` of the file says, or why it isn't written (`# not written:`). Each file is made up in the
# manner of real ones.
#
#   examples/convert/files/count.sh [CISERVER [CONVERT]]        as in: examples/convert/files/count.sh bin/ciserver
#
# It ends with 0 where all is as the files say.
set -u
ciserver=$(realpath "${1-$(dirname "$0")/../../../bin/ciserver}")
convert=$(realpath "${2-$(dirname "$0")/../../convert.py}")
cd "$(dirname "$0")" || exit 1
work=$(mktemp -d)
trap 'rm -rf "$work"' EXIT
files=0 written=0 taken=0 planned=0 right=0
for file in *.yml; do
  files=$((files + 1))
  read -r -a words <<< "$(sed -n 's/^# words: //p' "$file")"
  sed -n 's/^# jobs on main: //p' "$file" | sed 's/; /\n/g' > "$work/wanted"
  if ! python3 "$convert" "${words[@]}" "$file" > "$work/made" 2> "$work/said"; then
    cause=$(sed -n 's/^# not written: //p' "$file")
    if [ "$cause" ] && [[ $(tail -n 1 "$work/said") = *": $cause" ]]; then
      right=$((right + 1))
    else
      echo "$file: not written: $(tail -n 1 "$work/said")"
    fi
    continue
  fi
  written=$((written + 1))
  if ! "$ciserver" check "$work/made" > "$work/said" 2>&1; then
    echo "$file: $(cat "$work/said")"
    continue
  fi
  taken=$((taken + 1))
  if ! "$ciserver" plan "$work/made" --ref main > "$work/plan" 2>&1; then
    echo "$file: no pipeline: $(tail -n 1 "$work/plan")"
    continue
  fi
  planned=$((planned + 1))
  awk 'NR == 1 { at = index($0, "JOB"); behind = index($0, "WAITS FOR") }
    NR > 1 && /^jobs:/ { exit }
    NR > 1 { job = substr($0, at, behind - at); sub(/ +$/, "", job); print job ($2 == "manual" ? " (manual)" : "") }' "$work/plan" > "$work/got"
  if diff "$work/wanted" "$work/got" > "$work/diff"; then
    right=$((right + 1))
  else
    echo "$file: other jobs:"
    cat "$work/diff"
  fi
done
echo "$files files: $written written, $taken taken, $planned with a pipeline on main, $right as they are to be"
[ "$right" = "$files" ]
