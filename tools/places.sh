#!/usr/bin/env bash
# Counts, in src/ of every crate, the lines that may be places of an older form of code, point by point as docs/DESIGN-PASS.md has them.
# With -v it also prints the lines. Run at the repository's root.
set -u
verbose=${1:-}
count() {
    local found
    found=$(grep -nE "$2" crates/*/src/*.rt | grep -vE '\.rt:[0-9]+: *//')
    printf '%5d  %s\n' "$(printf '%s' "$found" | grep -c .)" "$1"
    [ "$verbose" = -v ] && [ -n "$found" ] && printf '%s\n' "$found"
    return 0
}
echo '1 options, results, numbers for kinds'
count 'own enums' '^ *(pub(\(crate\))? )?enum [A-Z]'
count 'fields of truth values' '^ +(pub(\(crate\))? )?[a-z_]+: bool,'
count 'numbers for refusals' 'number: [0-9]+,|of_end\([0-9]+\)|=> \([0-9]+, '
count 'numbers for kinds' '\bkind (<|>|==) '
count 'errors that are a bare number' 'Result<.*, (u8|u32|usize)>'
count 'cases that cannot happen' 'unreachable!?\('
count 'numbers for none' '^ +(WINDOW|4)$'
echo '2 twins'
count 'an octet, flag, mark or digit at a place, else a default' 'fn (octet_at|flag|entry|digit_at)\('
count 'a guard before an index, else a default' '^ +if ([pnki]|place) (<|>=) '
count 'sums of slots in 64 bits' 'u64::from'
count 'places by 4 times Q and RN' '4 \* .*(q|rn_after)'
count 'constants of size' 'const [A-Z_]+: usize'
count 'impls of a trait of ours' '^impl.* (Number|Direction) for '
echo '3 loops'
count 'while, loop, and for over a range' '\bwhile\b|\bloop \{|\bfor [a-z_()&, ]+ in [^{]*\.\.'
echo '4 equality, order, copying, conversion, printing'
count 'conversions' 'fn (from_octet|from_marks|octet|marks|refusal|digit_value|digit_character|more_digit)\('
count 'texts' 'fn [a-z_]*(_text|_head|_word|_or_none)\('
count 'arms that are true or false' '=> (true|false),'
count 'orders' 'fn goes_before\('
count 'casts' '\bas (u8|u16|u32|u64|u128|usize|char)\b'
echo '5 facts and parameters'
count 'arrays of marks, packets, places or flags as parameters' '(packets|window|pieces|flags|places): &(mut )?\['
count 'a half seen through a function' '(sending|receiving) D\.Number\.Number'
count 'clauses on the text of an answer' 'λ s\. string_bytes'
count 'clauses on a length of at most 424' '≤ 424 \}'
count 'parameters of handle, half and slot' '^ +(sender|receiver): &|sender: &(mut )?Sender'
echo '6 buffers and arrays'
count 'lengths as fields' '^ +(pub(\(crate\))? )?len: usize,'
count 'arrays as fields' '^    (pub(\(crate\))? )?[a-z_]+: \[.*; [A-Za-z0-9_]+\],'
echo '7 switches'
count 'a switch that says which test to run' '\bWhich\b'
echo '8 proofs'
files=$(find crates/*/proofs -name Answers.antt)
printf '%5d  %s\n' "$(printf '%s\n' "$files" | grep -c .)" 'files of answers'
printf '%5d  %s\n' "$(cat $files | grep -cE '^pub ')" 'answers'
printf '%5d  %s\n' "$(cat $(find crates/*/proofs -maxdepth 1 -name '*.antt') | grep -cE '^(pub )?[a-z][A-Za-z0-9_'"'"'-]* : ')" 'lemmas and definitions'
