#!/usr/bin/env bash
# Shows that two misuses of a trial do not pass the build: reading on while a trial holds the place, and
# confirming one trial twice. Each is tried on a copy of the crate `source` with one function added, and
# must be refused with the borrow checker's own code; the same function without the misuse must pass.
set -eu
cd "$(dirname "$0")/.."
work=$(mktemp -d)
trap 'rm -rf "$work"' EXIT
mkdir "$work/crates"
cp -r crates/refusals crates/source "$work/crates"
printf 'refusals:\nsource: refusals\n' > "$work/crates.txt"
trial=crates/source/src/trial.rt

# tries the body of a function `misuse`, and prints the first error's code, or `accepted`
try() {
    cp "$trial" "$work/$trial"
    cat >> "$work/$trial" <<TEXT

pub fn misuse(bytes: &[u8], place: &mut Place) -> usize {
    let mut trial = Trial::begin(bytes, place);
    let _ = trial.take_unicode_prefix();
    $1
}
TEXT
    if (cd "$work/crates/source" && rt check) > "$work/log" 2>&1; then
        echo accepted
    else
        grep -oE 'error\[[A-Za-z0-9-]+\]' "$work/log" | head -n 1
    fi
}

expect() {
    got=$(try "$2")
    if [ "$got" != "$3" ]; then
        echo "$1: expected $3, got ${got:-no error code}"
        cat "$work/log"
        exit 1
    fi
    echo "$1: $got"
}

expect 'a trial confirmed once' 'trial.confirm(); place.at' accepted
expect 'reading on while a trial holds the place' 'let at = place.at; trial.confirm(); at' 'error[borrow-e0503]'
expect 'one trial confirmed twice' 'trial.confirm(); trial.confirm(); place.at' 'error[borrow-e0382]'
