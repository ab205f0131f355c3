# shellcheck shell=bash
# What the build and the scripts of dist/ share. They source it at the top of the repository.
# bin/ciserver.sources says of which sources and with which kit bin/ciserver was built, and the program's own sum; dist/BUILT says so of dist's program.
packed=dist/ciserver-x86_64-linux.xz

# sum_of FILE: its SHA-256.
sum_of() {
  sha256sum < "$1" | cut -d ' ' -f 1
}

# told NAME FILE: the line of FILE that begins with NAME, without it.
told() {
  sed -n "s/^$1 //p" "$2" 2> /dev/null || :
}

# is_built: bin/ciserver was built here, of the tree's sources and with the kit that is here.
is_built() {
  local kit
  kit=$(rt version 2> /dev/null) && [ -x bin/ciserver ] &&
    [ "$(cat bin/ciserver.sources 2> /dev/null)" = "$(about "$(.ci/sources)" "$kit" bin/ciserver)" ]
}

# about SOURCES KIT PROGRAM: the lines of bin/ciserver.sources.
about() {
  printf 'sources %s\nkit %s\nprogram %s\n' "$1" "$2" "$(sum_of "$3")"
}

# keep PROGRAM SOURCES: leaves at bin/ciserver a program that was built here of the sources with this sum.
keep() {
  mkdir -p bin
  cp "$1" bin/ciserver.new
  about "$2" "$(rt version)" bin/ciserver.new > bin/ciserver.sources
  mv bin/ciserver.new bin/ciserver
}

# tell_sources SOURCES FOLDER: has the program that is built of the copy in FOLDER tell this sum of its sources.
tell_sources() {
  sed -i "s/sources: 0\{64\}/sources: $1/" "$2/crates/ci_cli_words/src/command_line.rt"
}

# is_of_these_sources: dist's program was built of the tree's sources.
is_of_these_sources() {
  [ "$(told sources dist/BUILT)" = "$(.ci/sources)" ]
}

# unpack TO: writes dist's program to TO, where it is what SHA256SUMS says.
unpack() {
  if ! xz -dc "$packed" > "$1" || [ "$(sum_of "$1")" != "$(sed -n 's/  ciserver-x86_64-linux$//p' dist/SHA256SUMS)" ]; then
    rm -f "$1"
    echo "$packed does not hold the program that dist/SHA256SUMS names" >&2
    return 1
  fi
  chmod +x "$1"
}

# llvm NAME WORD..: one of LLVM's programs, as the kit has them.
llvm() {
  local kit
  kit=$(dirname "$(rt doc)")
  (exec -a "llvm-$1" "$kit/toolchain/bin/clang" "${@:2}")
}
