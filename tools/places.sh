#!/bin/sh
# Counts places in src/ by their text, one line for a kind of place (docs/DESIGN-PASS.md says what became of each).
# Run it at the root of a checkout; `sh tools/places.sh list` prints the places too. A line found is a place to look at.
list=$1

show() { # point, what, the places
    printf '%-2s %4d  %s\n' "$1" "$(printf '%s' "$3" | grep -c .)" "$2"
    if [ "$list" ]; then printf '%s\n' "$3" | sed 's/^/         /'; fi
}

text() { # point, what, pattern
    show "$1" "$2" "$(grep -rnE "$3" crates/*/src --include='*.rt' | grep -vE '^[^:]*:[0-9]+: *//')"
}

text 1 'kinds, ways and refusals as numbers' '\bkind [=!]= |^ +[0-9]+( if [^=]*)? => |^ +[0-9]+ => |const (PACKET|BEHIND|ANSWER|DIGEST|NONE): |\.extend_from_slice\(&\[[0-9]+, [a-z]|append\(&\[[0-9]'
text 1 'variants that say none, and links of zeros' '^ +(Nothing|Other|None|Never|Idle),$|^ +place: 0,'
text 1 'a bool as a step'"'"'s answer (Result<bool, ..>)' 'Result<bool'
text 1 'theorems that answer 0' '^pub fn [a-z_]+\(\) -> u8$'
show 2 'names of functions that stand in more than one place' "$(grep -rhoE '^ *(pub(\([a-z]+\))? )?fn [a-z_0-9]+' crates/*/src --include='*.rt' | sed -E 's/.*fn //' | sort | uniq -d)"
show 2 'files with the name and most of the text of another' "$(for f in crates/*/src/*.rt; do
    for g in crates/*/src/"${f##*/}"; do
        case "$f" in */lib.rt|*/main.rt) continue ;; esac
        if [ "$f" \< "$g" ] && [ "$(diff "$f" "$g" | grep -c '^[<>]')" -lt "$(wc -l < "$f")" ]; then echo "$f $g"; fi
    done
done)"
text 3 'loops over an index or a count' 'for _?[a-z0-9]* in .*\.\.|\bwhile |\bloop \{'
text 4 'equality, conversion and printing by hand' 'fn (same|is_same|is_of|is|number|from_number|to_bytes|from_bytes|text|refusal_text|read_flow|flow_of|named|server_of|number16|number32)\(|struct [A-Za-z]+Text'
show 5 'a requires that stands in three functions or more of a crate' "$(for c in crates/*/; do
    grep -rhoE '^ +requires.*' "$c"src --include='*.rt' | sed 's/^ *//; s/self\.old\.//' | sort | uniq -c | awk -v c="$c" '$1 >= 3 { print c": "$0 }'
done)"
text 6 'a length or a position beside a buffer, and lists side by side' '^ +(count|len|past_count|at): usize,|^    (pub )?(known|telling|had|has|parted): |out: &mut \[u8\], at: usize'
text 6 'arrays of fixed length' '\[[A-Za-z0-9]+; (8|16|256)\]'
text 7 'steps that differ in the call they make' 'fn random_(letter|loss|copy)|fn (deliver|lose|repeat)\(|match settings\.take'
printf '8  %4d  files of proofs, %d lines\n' "$(find crates/*/proofs -name '*.antt' | wc -l)" "$(find crates/*/proofs -name '*.antt' -exec cat {} + | wc -l)"
