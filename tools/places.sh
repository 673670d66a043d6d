#!/bin/sh
# Counts the lines of src/ that may be places of an older form of the language, point by
# point, as docs/DESIGN-PASS.md has them: tools/places.sh [COMMIT] [-v], -v shows each.
commit=${1:-HEAD}
show=$2

point() {
    lines=$(git grep -nE "$2" "$commit" -- 'crates/*/src/*.rt' | sed "s/^$commit://" | grep -vE "${3:-^\$}")
    if [ -z "$lines" ]; then count=0; else count=$(printf '%s\n' "$lines" | wc -l); fi
    printf '%4d  %s\n' "$count" "$1"
    if [ "$show" = -v ] && [ "$count" -gt 0 ]; then printf '%s\n' "$lines"; fi
}

point '1 enums, to be read for the shape of Option or Result' '^ *(pub |pub\(crate\) )?enum '
point '1 flags: fields, and locals that are set' ': bool,|\bmut [a-z_]+ = (true|false);'
point '1 kinds of words, and other kinds, by numbers or texts' '^ +[0-9][0-9 |.=]* => |counted\(word, place, [0-9]+|!= 11|form == 0|^ +"[a-z]+" => ' '=> Kind::'
point '1 refusals by numbers: made, handed on, or 0 for none' 'fn (code|refusal|refusal_text|asked)\(|refusal(_text)?\(.*fault\.code\(\)|-> Result<.*, u32>'
point '1 a number in place of none' 'usize::MAX|unwrap_or\("0"\)|unwrap_or\(\("' 
point '2 functions with the same name in two files, or their twins' 'fn (add_word|add_token|file_bytes|asked|known_move|pick_move|count_moves|code|place|read_offers|add_offers|read_rows|add_rows)\(|const TWO_ROWS|match (Fence|Rename|Pair)::new'
point '3 loops over an index, counters counted by hand, recursion that counts' 'for (i|k|u|s) in 0\.\.|for \(i, |mut (left|count|met) = |(count|left) - 1|while let'
point '4 conversions, comparisons and printing by hand' '^ *impl From|fn (asked|code)\(|as usize\)\?\)|\{label\} \{target\}|refused \{code\}'
point '5 preconditions, which repeat facts' '\brequires\b' 
point '5 word and place, words and place, code and place side by side' 'word: u32, place: usize|words: &\[u32\], place: usize|code: u32, place'
point '6 tables, arrays by index, ranges by hand' 'Vec<(RowEntry|Offer|u32)>|\[0; |\[u32; LABELS\]|from: usize|offers\[row\.from|&words\[(at|used|row)' 
point '7 functions in fields, tables or results, dyn' '\bdyn |\bfn\(|Box<|: F[a-z]* *,'
