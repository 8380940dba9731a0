#!/usr/bin/env bash
# Builds target/beside/beside from the files of oxc_parser 0.156.0, which are used as they are:
#
#     tools/beside/build.sh FOLDER [LIBRARY.a]
#
# FOLDER is that crate's src; nine files of its lexer are needed (sources.sha256). LIBRARY.a is this
# repository's static library; without it the second reader (src/second.rs) stands in its place.
# target/beside/beside-bytes is the same program with the Rust's values in bytes, not 16-bit units.
# RUSTFLAGS adds flags, such as "-C debug-assertions" for the Rust's own checks.
set -eu
here=$(cd "$(dirname "$0")" && pwd)
folder=$(cd "$1" && pwd)
out=$here/../../target/beside
(cd "$folder" && sha256sum --check --quiet "$here/sources.sha256")

work=$(mktemp -d)
trap 'rm -rf "$work"' EXIT
cp -r "$here/src/." "$work"
while read -r _ file; do ln -s "$folder/$file" "$work/$file"; done < "$here/sources.sha256"
# modules that the lexer names and nothing here needs
for name in numeric punctuation regex typescript whitespace; do : > "$work/lexer/$name.rs"; done

flags=(--edition 2024 -C opt-level=3 -C codegen-units=1 ${RUSTFLAGS:-})
if [ $# -gt 1 ]; then
    library=$(cd "$(dirname "$2")" && pwd)/$(basename "$2")
    flags+=(--cfg library -C "link-arg=$library")
fi
mkdir -p "$out"
rustc "${flags[@]}" "$work/main.rs" -o "$out/beside"
rustc "${flags[@]}" --cfg bytes "$work/main.rs" -o "$out/beside-bytes"
