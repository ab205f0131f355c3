#!/usr/bin/env python3
"""Writes the texts that bench/yaml.sh times into a folder, each of about so many bytes: yaml_texts.py FOLDER BYTES.

The first key of each is a keyword that is left out.
"""
import sys

JOB = """job %d:
  stage: test
  needs: [build, lint]
  rules:
    - if: '$CI_COMMIT_BRANCH == "main"'
      when: manual   # by hand
    - if: $CI_COMMIT_TAG =~ /^v[0-9]+$/
  variables:
    LEVEL: "info"
    RETRIES: 2
  script:
    - make -j 4 all
    - |
      for f in *.sh; do
        sh "$f"
      done
  tags: [linux, 'x86 64']

"""


def units(unit, size):
    """Units with their numbers, up to this many bytes."""
    made, n, at = [], 0, 0
    while at < size - len(unit) - 8:
        made.append(unit % n)
        at += len(made[-1].encode())
        n += 1
    return "".join(made)


def texts(size):
    yield "ordinary", units(JOB, size)
    yield "flow_list", "a: [" + units("%d, ", size) + "end]\n"
    yield "nested_maps", units("k%d:\n  a:\n    b:\n      c:\n        d: 1\n", size)
    yield "literal_block", "a: |\n" + units("  echo line %d of the block\n", size)
    yield "double_quoted", 'a: "' + units("word %d \\n", size) + '"\n'
    yield "short_keys", units("k%d: 1\n", size)


folder, size = sys.argv[1], int(sys.argv[2])
for name, text in texts(size):
    with open(f"{folder}/{name}.yml", "w", encoding="utf-8") as file:
        file.write("image: x\n" + text)
