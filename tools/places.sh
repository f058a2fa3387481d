#!/bin/bash
# Prints the lines of src/ that docs/DESIGN-PASS.md counts, point by point: tools/places.sh [FOLDER]. A line is a place to look at, not yet a place.
cd "${1:-.}" || exit 1
sources=$(ls crates/*/src/*.rt | grep -v '/tests\.rt$')
show() { echo "== $1"; shift; grep -nE "$@" $sources; }
show '1a flags beside values' '^ +(pub )?[a-z_]+: bool,|\(usize, bool\)'
show '1b enums' '^(pub )?enum '
show '1c numbers for kinds and refusals' ' as u8|u8::from\(|\(u8\)|-> u8'
show '1d failures passed on by hand' 'None => (return )?(Err|None|Ok)|Err\([^)]*\) => (return )?(Err|None|Ok|false)|(Some|Ok)\([^=]*= .* else \{'
show '3 loops' '^ +(for|while|loop) '
show '4a impls of equality, order, copying, conversion and printing' '^impl.* (PartialEq|Eq|PartialOrd|Ord|TotalOrder|Clone|Copy|Default|fmt::Display|From<.*>|TryFrom<.*>|FromStr) for'
show '4b functions that print or convert' '^ *(pub )?fn (write_[a-z_]*|[a-z]*_name|name|words|sign_text|named|of)\b'
echo '== 5 facts asked by three contracts or more'
grep -hE '^ +requires' $sources | sed -E 's/^ +requires ([a-z_]+ )?//; s/\.(now|old|entry)\b//g' | sort | uniq -c | sort -rn | awk '$1 > 2'
show '6 arrays in records' ': \[[A-Za-z0-9_]+; [0-9]+\],'
show '7 switches on a word' 'match (name|word|first\.text)|fn\(|dyn '
echo '== 8 answers, lemma files'
find crates/*/proofs -name Answers.antt | wc -l
find crates/*/proofs -name Answers.antt -exec cat {} + | wc -l
cat crates/*/proofs/*.antt | wc -l
