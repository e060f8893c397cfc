#!/bin/sh
# Candidates for each point of docs/DESIGN-PASS.md, one to a line, in the sources below the current folder.
# Usage: tools/places.sh POINT, where POINT is 1 to 8; run it at the top of a checkout.
src() { find crates/*/src -name '*.rt' | sort; }
case "$1" in
1) # own enums, and numbers that name a kind, a place, a side or a refusal
   src | xargs grep -nE '^\s*(pub )?enum |\b(feature|place|kind|axis|imax|index|number|sign_index|fid|id|header)\w*: (u8|u32|usize)|const HEADER_\w+: u32|fn \w+\(.*\) -> (u8|u32|usize|u64) *(\{|$)|\(u8\),|, usize, usize' ;;
2) # names of functions that stand more than once, and functions or types of one shape
   src | xargs grep -hoE '\b(fn|struct|enum) [A-Za-z_0-9]+' | sort | uniq -c | awk '$1 > 1' ;
   src | xargs grep -nE '\bfn (vertex|edge|face|packed_\w+|vertices|edges|is_vertex|is_edge|is_face|is_hint_given|are_\w+|is_near|segment2?|four_\w+|point2|vector|number|word|place|write_vectors|write_ids|write_clips|write_meeting|shape|feature|put_\w+|lines|clip|pack|done|clip_low|clip_high|read_clip|read_lines|hex_digit|write_hex|reason)\b' ;;
3) # loops, and places of an array read one by one
   src | xargs grep -nE '\b(for \w+ in |for \(.*\) in |while |loop \{)|\[[0-9]\]' ;;
4) # equality, order, copying, conversion and printing in functions of one's own
   src | xargs grep -nE '\bfn (number|reason|unpack|row_of|new|next|default|initial_datum|is_unknown|write_\w+|put|put_char|put_group|hex_digit|narrow|from_\w+|to_\w+|are_ids|is_at|bits|read_command|refused)\b' ;;
5) # facts that stand in more than one clause, and parameters that several functions share
   src | xargs grep -hoE '(requires|ensures)( [a-z_]+)? \{.*\}' | sed -E 's/^(requires|ensures)( [a-z_]+)? //' | sort | uniq -c | awk '$1 > 1' ;
   src | xargs grep -hoE '^ +[a-z_0-9]+: (&|\[|\(|Vector|Pose|PackedFeatureId|Option|Range|ClippingPoints|usize|f64|bool)[^:]*,$' | sort | uniq -c | awk '$1 > 1' ;;
6) # arrays, slices that are written, and counts beside them
   src | xargs grep -nE '\[[A-Za-z0-9_]+; *[A-Za-z0-9_]+\]|&mut \[|num_vertices: usize' ;;
7) # flags that choose a step, function pointers, closures as parameters
   src | xargs grep -nE '\w+: bool\b|\bfn\(|dyn |impl Fn|F: Fn' ;;
8) # lines of proof, files of answers, and lemmas cited by nothing
   find crates/*/proofs -name '*.antt' | xargs cat | wc -l ;
   find crates/*/proofs -name 'Answers.antt' | wc -l ;
   for f in crates/*/proofs/*.antt; do
     grep -oE "^ *(pub )?[a-z][A-Za-z_0-9'-]* : " "$f" | sed -E 's/^ *(pub )?//; s/ : $//' | sort -u | while read -r l; do
       others=$(grep -rlwF --exclude-dir=out --include='*.antt' --include='*.rt' -e "$l" crates | grep -vxF "$f" | wc -l)
       here=$(grep -wF -e "$l" "$f" | grep -vcE "^ *(pub )?$l (:|[^=]*= ?)")
       [ "$others" -eq 0 ] && [ "$here" -eq 0 ] && echo "$f: $l"
     done
   done ;;
*) echo "usage: tools/places.sh POINT" >&2; exit 2 ;;
esac
