#!/bin/sh
# Counts, in the src/ of the crates at a commit, the places that docs/DESIGN-PASS.md speaks of: tools/places.sh COMMIT [-l]
# (-l lists them). A line counts that matches the pattern of its point; which of them are places is said in the page.
set -u
commit=$1
list=${2-}
places() {
    found=$(git grep -nE "$2" "$commit" -- 'crates/*/src/*.rt' | sed "s/^$commit://")
    count=$(printf '%s' "$found" | grep -c .)
    echo "$1: $count"
    if [ "$list" = -l ]; then printf '%s\n\n' "$found"; fi
}
places '1a enums' '^ *(pub )?enum '
places '1b numbers for kinds' 'tag: u8|tag == 0x|=> [0-9]+,'
places '2a constants' 'const [A-Z_]+:'
places '2b functions' '^ *(pub(\([a-z]+\))? )?fn '
places '3a loops that go on while' '\bwhile '
places '3b loops over a range' '\bfor [a-z_]+ in 0\.\.'
places '3c indices' '[a-z_]\[[a-z_]+(\.count)?\]'
places '4a impls by hand' '^impl.* (From|TryFrom|Clone|PartialEq|Ord|fmt::Display|Default)(<[A-Za-z]+>)? for '
places '4b numbers made of bytes' '\* 256|\* 65536'
places '4c faults printed in parts' 'let (number|place) = fault\.'
places '4d casts' ' as (u8|u16|u32|u64|usize)\b'
places '5a sets of words in clauses' 'words\.now ≡ map \(word'
places '5b a part within the branches' 'first \+ .*count ≤ 1024'
places '5c a place within the address space' 'place \+ length .* < 2 \^ 64'
places '5d what travels with others' 'place: usize|source: &S|words: &(mut )?\[u64\]'
places '6 arrays with their lengths beside' '\[(Row|Entry|row|entry|Branch|T|item); |count: (usize|u16)|used: usize'
places '7 switches on what to ask' 'match self\.(locate|entry|branch)\(|if self\.has'
