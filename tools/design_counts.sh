#!/bin/sh
# Counts, for docs/DESIGN-PASS.md, the places of each of its eight points in the code. Run at the top: tools/design_counts.sh
# With a commit as argument it counts there: tools/design_counts.sh COMMIT
set -e
if [ -n "$1" ]; then
    folder=$(mktemp -d)
    git archive "$1" crates | tar -x -C "$folder"
    cd "$folder"
fi
lines() { cat crates/*/src/*.rt | grep -v '^ *//'; }
count() { printf '%5d  %s\n' "$(lines | grep -cE "$2" || true)" "$1"; }

echo '1. own enums like Option or Result; a flag beside values; numbers for kinds'
count 'variants that hold a refusal' '^    (Fault|Refused|Bad|Missing|Faulty|Stopped|NotRead)\((Cause|Refusal)'
count 'arms that hand a refusal on' '(Fault|Refused|Bad|Missing|Faulty)\(cause, place\) => .*\(cause, place'
count 'a flag beside two sources' 'from_bytes: bool'
count 'an unused source made up' 'let none = \['
count 'a bool that says which of two' '(equal|pairs|used|translated|accepted): bool'
count 'a number for a kind or for no value' 'kind == [0-2]|== NONE|kind: u16|== ranges::ERR_STATE'

echo '2. twins'
printf '%5d  functions whose name stands in two or more crates or files\n' \
    "$(grep -ohE '^ *(pub )?fn [a-z_]+' crates/*/src/*.rt | sed 's/.*fn //' | sort | uniq -d | grep -cv '^main$')"
printf '%5d  functions with those names\n' \
    "$(grep -ohE '^ *(pub )?fn [a-z_]+' crates/*/src/*.rt | sed 's/.*fn //' | sort | uniq -c | awk '$1 > 1 && $2 != "main" { n += $1 } END { print n + 0 }')"

echo '3. loops'
count 'while and loop' '^ *(while |loop \{)'
count 'an index or a rest counted by hand' '^ *(i|at|k|n|x|j|left|done|count) *[-+]= |^ *left = left - 1;'
count 'for' '^ *for '

echo '4. equality, order, copying, conversion, printing by hand'
count 'functions that compare, convert or print' 'fn (same|same_as|seen_as|record|records|states|values|tell_[a-z]+|number_of|phase_number|mark_number|mark_of|phase_of|kind_of|code_of|action_of|put_number|put_digits|put_word|say_[a-z_]+|one_if|wide|widened|four|word|put_word)[(<]'
count 'derives of a comparison' 'derive\(.*PartialEq'
count 'impl From, TryFrom, Display' '^impl.*(From<|Display)'

echo '5. facts in contracts, parameters that travel together'
count 'from_bytes, code, numbers' 'from_bytes(: bool)?, code|^ *from_bytes(: bool)?,$'
count 'Room .. trace start work' 'Room [0-9a-z(]'
count 'Marked trace marks' 'Marked trace'
count 'Indexed table places' 'requires.*Indexed table'
count 'a place in a lent buffer' '(place|at): usize.*out: &mut|out: &mut \[u8\], (place|at)'
count 'variables, own, other' 'variables: \[u32; 32\], own'

echo '6. buffers with a length beside, parallel numbers'
count 'a whole buffer and how much of it counts' '\[0\.\.[a-z_]+\]|\[\.\.[a-z_]+\]'
count 'three numbers for one thing' 'laid\[at'

echo '7. switches on which step to run'
count 'a bool that chooses the step' 'if (equal|pairs|from_bytes|!pairs|used) '
count 'a chain of steps that differ in a test' 'fn take_'

echo '8. proofs'
printf '%5d  answers to goals\n' "$(find crates -path '*/proofs/*' -name Answers.antt | xargs cat | grep -cE '^pub ')"
printf '%5d  files of answers\n' "$(find crates -path '*/proofs/*' -name Answers.antt | wc -l)"
