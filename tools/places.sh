#!/usr/bin/env bash
# Counts the places of docs/DESIGN-PASS.md in src/ at a commit: tools/places.sh [COMMIT]; with -l it lists them.
list=false
if [ "$1" = -l ]; then list=true; shift; fi
commit=${1:-HEAD}
count() {
    local name=$1 pattern=$2
    shift 2
    local found
    found=$(git grep -nE "$pattern" "$commit" -- "${@:-crates/*/src/*.rt}" | grep -vE ':[0-9]+: *(//|ghost )' | sed "s/^$commit://")
    printf '%-44s %s\n' "$name" "$(printf '%s' "$found" | grep -c .)"
    if $list; then printf '%s\n' "$found" | sed 's/^/    /'; fi
}
count '1 own enums of the shape of Option or Result' '^pub (\(crate\) )?enum (Found|Verdict|Decoded|Asked|Answer|Ended|Stepped)\b|^    Stopped'
count '1 a verdict beside what it guards' '^    pub verdict: Verdict'
count '1 questions as numbers: constants' '^(pub )?const [A-Z_]+: u8'
count '1 questions as numbers: types' '(No|Stopped|Refused)\(u8|question: u8|fn shape_no|let mut question = 0'
count '1 kinds of records as numbers' '(kind|last): u16'
count '2 searches for the first no' 'fn (pairs_to|allowed_lines|held_presets)\b'
count '2 readers and writers of one shape' 'fn (two|four|put_number|refused|no_index|line_bytes|holds)\('
count '3 while and loop' '^ +(while|loop)\b'
count '4 types without Debug, PartialEq, Eq' '^#\[derive\(Clone, Copy\)\]'
count '4 equality field by field' '\.op == |\.p == |\.q == |procedure == |\.procedure\.0 == 0'
count '4 numbers and bytes put together by hand' '0x1(00|_0000|00_0000|_0000_0000) \* |% 0x100|/ 0x100'
count '5 task, index and offsets as parameters' 'offsets: &\[usize; 64\]'
count '5 the length of an array in a clause' 'length [a-z]+(\.(old|new|now))? ≡ 768'
count '5 text and offset as parameters' 'text: &mut \[u8\], at: usize'
count '6 a buffer with a size or a count beside' 'trace: &\[u8; 4096\]|size: usize, others|given: usize|width: usize, n: u64|file_space'
count '7 switches on which step to run' '(^|[^a-z_])fn\(|dyn '
count '8 answers to goals' '^pub [^ ]+ : goal\.' 'crates/*/proofs/**/Answers.antt'
