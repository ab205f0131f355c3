#!/usr/bin/env bash
# Times `ciserver explain` on CI files of 65,536 bytes with 2,000 faults each: fifty jobs with forty faults each, and one job with all of them in
# one list. Wants python3, and bin/ciserver (make build) or the program that is named.
set -eu
cd "$(dirname "$0")/.."
program=${1:-bin/ciserver}
[ -x "$program" ] || { echo "there is no $program: make build" >&2; exit 1; }
work=$(mktemp -d)
trap 'rm -rf "$work"' EXIT
python3 - "$work" <<'PY'
import sys

def write(name, lines):
    text = '\n'.join(lines) + '\n'
    text += '# ' + 'x' * (65536 - len(text) - 3) + '\n'
    assert len(text) == 65536
    open(f'{sys.argv[1]}/{name}', 'w').write(text)

jobs = []
for job in range(50):
    jobs += [f'job-{job}:', '  stage: build', '  tags: [linux, amd64]', '  script:']
    for line in range(20):
        jobs += [f'    - echo "a{line}: ok"', f'    - make {line}']
    jobs.append('  variables:')
    for name in range(20):
        jobs += [f'    {name}A: x', f'    G{name}: x']
write('jobs.yml', jobs)
one = ['job:', '  script: make', '  needs:']
for need in range(2000):
    one += [f'    - n{need}', f'    - - {need}']
write('list.yml', one)
PY
for file in jobs list; do
  start=$(date +%s%N)
  "$program" explain "$work/$file.yml" > "$work/said" || true
  end=$(date +%s%N)
  echo "$file: $(grep ' faults$' "$work/said"), $(( (end - start) / 1000000 )) ms"
done
