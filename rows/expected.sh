#!/bin/sh
# Prints the output and the status that gcc gives for each text that `determined` names, on the input NAME.in where there
# is one: those whose run ends without a violation, and whose result C99 determines where integers wrap and plain char is
# unsigned. The rows of crates/source_meaning_rows/proofs were compared with gcc (Debian 12.2.0-14+deb12u1) 12.2.0.
set -eu
cd "$(dirname "$0")"
made=$(mktemp -d)
trap 'rm -rf "$made"' EXIT
while read -r name; do
    gcc -std=c99 -fwrapv -funsigned-char -fno-builtin -w \
        -include stdio.h -include stdlib.h -include string.h "$name.c" -o "$made/row"
    status=0
    input=/dev/null
    [ ! -f "$name.in" ] || input=$name.in
    output=$("$made/row" <"$input") || status=$?
    printf '%s: %s, %s\n' "$name" "$output" "$status"
done <determined
