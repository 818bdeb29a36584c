#!/bin/sh
# Counts in src/ the places that docs/DESIGN-PASS.md speaks of: tools/places.sh COMMIT [-v]
# With -v it lists them. A line that is a comment or a clause is no place.
set -u
commit=${1:-HEAD}
mode=${2:-}

places() {
    git grep -nE "$2" "$commit" -- 'crates/*/src/*.rt' | sed 's/^[^:]*://' | grep -vE ':[0-9]+:\s*(//|ghost |ensures|requires)' > /tmp/places.$$
    printf '%-44s %s\n' "$1" "$(wc -l < /tmp/places.$$)"
    if [ "$mode" = -v ]; then sed 's/^/    /' /tmp/places.$$; fi
    rm -f /tmp/places.$$
}

places '1 bool that says whether a change was made' 'fn (store|put|change|push|insert|set)[a-z_]*(<[^>]*>)?\(.*-> bool'
places '1 number for a kind, tag, month or line' '\b(tag|kind|item|class|mode|event|line|month|above|row|number): u8\b'
places '1 flag or empty value beside a value' '^\s+(pub )?(is_negative|stands|name|year|above): (bool|&.f \[u8\]|u16|u8),'
places '1 let else that only names an error' 'let (Some|Ok)\([a-z]+\) = .* else \{$'
places '1 match that hands an option or result on' '(None => None|Err\(_\) => None|Err\((fault|_)\) => Err|Ok\([a-z]+\) => Ok\([a-z]+\)|^ +Err\([A-Za-z_]+\) => false)'
places '1 case that cannot be' 'unreachable\(\)'
places '1 value that stands for none' '(NO_FACTOR|NO_ROW): |unwrap_or\(0\)|None => 0,'
places '2 a type said twice' 'pub struct (Counts|Next|Water|Steam|Wastewater|WaterQuantities|SteamQuantities|WastewaterQuantities)\b'
places '2 a function said twice' 'fn (count_frames|offer_frames|put_share|put_name|share_size|name_size|rate_of|share_of|product|wide_product|entry_under|offer_under|byte|word|double_word|booked_line|month_line|figure_line|two_bytes|date_bytes|is_of_shape|letter_byte|hold|release|close)\b'
places '3 while' '\bwhile\b'
places '3 for over numbers' 'for [a-z_]+ in .*\.\.'
places '3 index worked out by hand' '\b[a-z_.]+\[[a-z_]+( [-+] [0-9]+)?\]|\[[a-z_]+ as usize\]|\[usize::from\(|\[[a-z_.()]+ as usize - 1\]|\[\([a-z_.()]+ - 1\) as usize\]|\[place\('
places '4 fault to refusal, layer to word' 'fn (refusal|word)\(self'
places '4 number or letter to a type' 'pub fn (new|from_letter|of)\((number|row|item|letter|kind): [a-zA-Z0-9]+\)'
places '4 type to a number or letter' 'pub fn (number|item|letter|row)\(self'
places '4 bytes of a number by arithmetic' '[*/%] (256|65536)'
places '4 numbers compared in place of values' 'number\(\) (==|!=) '
places '4 type back to its number by a match' '^ +[A-Z][A-Za-z]+::[A-Z][A-Za-z]+ => [0-9],$'
places '4 text put together by hand' 'fn put_(hex|quantities|refusal|readings|record|entry|copy)\b'
places '5 heap, book or sources handed along' '(heap: Global|book: &mut Book<|pair: &mut Pair<|sources: &mut)'
places '5 reading with its limits' 'fn [a-z_]+\(x: f32, limits: Limits\)'
places '5 buffer with the place in it' 'out: &mut \[u8\], at: usize'
places '6 buffer with its length' '^\s+length: usize,'
places '6 sorted table searched by hand' 'row_at\(place|day <= before\['
places '7 step chosen by a number or a mode' 'match (mode|self\.mode|event|input\.byte\(\)\?) \{'
printf '%-44s %s\n' '5 clauses that name the memory' "$(git grep -hE 'ensures.*ghost_name' "$commit" -- 'crates/*/src/*.rt' | wc -l)"
printf '%-44s %s\n' '5 clauses of two facts' "$(git grep -hE '(ensures|requires)[a-z_ ]*\{ \([^λ]*\) × \(' "$commit" -- 'crates/*/src/*.rt' | wc -l)"
printf '%-44s %s\n' '8 answers in proof files' "$(git grep -hE '^pub [^ ]+ : goal\.' "$commit" -- 'crates/*/proofs/*Answers.antt' | wc -l)"
printf '%-44s %s\n' '8 lines of proofs' "$(git ls-tree -r --name-only "$commit" crates | grep '/proofs/.*antt$' | while read -r f; do git show "$commit:$f"; done | wc -l)"
