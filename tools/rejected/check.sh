#!/usr/bin/env bash
# Programs that must not be accepted: a verdict asked of a draft, a line entered into the completed book, and a line entered
# into the draft that the search has used up. Each stands beside a twin that differs from it in one line. This script fails
# unless the check rejects each program in that line and for the reason given here, and proves every twin.
set -euo pipefail
here=$(cd "$(dirname "$0")" && pwd)
root=$(cd "$here/../.." && pwd)
work=$(mktemp -d)
trap 'rm -rf "$work"' EXIT

mkdir "$work/crates"
for crate in ordered profile game book; do
    mkdir "$work/crates/$crate"
    for part in src specs proofs; do
        if [ -d "$root/crates/$crate/$part" ]; then cp -R "$root/crates/$crate/$part" "$work/crates/$crate/$part"; fi
    done
done
grep -E '^(ordered|profile|game|book):' "$root/crates.txt" >"$work/crates.txt"

add() { # NAME TEXT: a crate of that name which holds the text
    mkdir -p "$work/crates/$1/src"
    cp "$here/$2" "$work/crates/$1/src/lib.rt"
    echo "$1: book game profile" >>"$work/crates.txt"
}

rejected() { # TEXT WORDS: TEXT.txt is rejected with these words in the one line in which its twin differs
    line=$({ diff "$here/$1.txt" "$here/$1.twin.txt" || true; } | sed -n 's/^\([0-9]*\)c\1$/\1/p')
    if [ -z "$line" ]; then echo "$1: the twin does not differ in just one line"; exit 1; fi
    add "$1" "$1.txt"
    if (cd "$work/crates/$1" && rt check >"$work/$1.out" 2>&1); then echo "$1: accepted, but must be rejected"; exit 1; fi
    if ! grep -E "(^|[ /])src/lib.rt:$line:" "$work/$1.out" | grep -qF "$2"; then
        echo "$1: rejected, but not in line $line with '$2':"
        tail -n 20 "$work/$1.out"
        exit 1
    fi
    echo "$1: rejected in line $line with '$2', as it must be"
}

programs='verdict_of_a_draft enter_in_a_completed_book enter_after_completion'
twins=''
for program in $programs; do
    add "${program}_twin" "$program.twin.txt"
    twins="$twins ${program}_twin"
done
for twin in $twins; do
    if ! (cd "$work/crates/$twin" && rt check >"$work/$twin.out" 2>&1); then echo "$twin: not proved:"; tail -n 20 "$work/$twin.out"; exit 1; fi
done
echo "proved, as they must be:$twins"
rejected verdict_of_a_draft 'error[unknown-method]: no method named `verdict` found for type `Draft`'
rejected enter_in_a_completed_book 'error[unknown-method]: no method named `enter` found for type `Completed`'
rejected enter_after_completion 'error[borrow-e0382]: use of moved value: `draft`'
