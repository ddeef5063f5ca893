# Packing: good scenes, remarks, and each refusal with its place.
case1="--schema $e/case1/case1.schema"
hall="--schema $e/hall/hall.schema"

# The default name, and a named one.
cp "$e/case1/case1.sheet" "$t/a.sheet"
run 0 pack "$t/a.sheet" $case1; same "$t/a.pso" "$e/case1/case1.pso"; empty out
has err "a.pso: 96 bytes, 1 block, 1 definition, 0 remarks"
run 0 pack "$e/hall/hall.sheet" $hall -o "$t/hall.pso"; same "$t/hall.pso" "$e/hall/hall.pso"; empty out
has err "remark: $e/hall/hall.sheet: structure 0xC8FDDC97, member 0x9F5ED20C: value is not a float (row 44)"
has err "hall.pso: 1,244 bytes, 9 blocks, 9 definitions, 1 remark"
# The pack is a schema file too.
run 0 pack "$e/hall/hall.sheet" --schema "$e/hall/hall.pso" -o "$t/again.pso"; same "$t/again.pso" "$e/hall/hall.pso"

# Standard input and output.
"$S" pack - $hall <"$e/hall/hall.sheet" >"$t/piped" 2>"$t/err"; same "$t/piped" "$e/hall/hall.pso"
has err "standard output: 1,244 bytes"
"$S" pack "$e/hall/hall.sheet" --schema - -o - <"$e/hall/hall.schema" >"$t/piped" 2>"$t/err"
same "$t/piped" "$e/hall/hall.pso"

# refuse NUMBER WORDS...: refused, and nothing is written.
refuse() { number=$1; shift; run 1 pack "$@" -o "$t/none.pso"; has err "refusal $number:"; empty out; gone "$t/none.pso"; }
# hurt NAME PLACE OCTAL...: a copy of an example's file with other bytes.
hurt() { from=$1; shift; cp "$from" "$t/hurt"; poke "$t/hurt" "$@"; }

: >"$t/nothing"
refuse 1 "$t/nothing" $case1; has err "0 bytes, the row count has 4"
head -c 51 "$e/case1/case1.sheet" >"$t/short"
refuse 1 "$t/short" $case1; has err "2 rows need 52 bytes, there are 51"
head -c 1200 "$e/hall/hall.sheet" >"$t/short"
refuse 1 "$t/short" $hall; has err "row 3: the text ends at 29, the text area has 20 bytes"
truncate -s 500000 "$t/long"; poke "$t/long" 3 1
refuse 1 "$t/long" $case1; has err "longer than the longest sheet, 458755 bytes"
hurt "$e/case1/case1.sheet" 28 026; refuse 1 "$t/hurt" $case1; has err "row 1: there is no kind 22"
hurt "$e/case1/case1.sheet" 29 1; refuse 1 "$t/hurt" $case1; has err "row 1: the three bytes behind the kind"
hurt "$e/case1/case1.sheet" 28 3 0 0 0 0 0 0 101 0 0 1 0; refuse 1 "$t/hurt" $case1; has err "row 1: 0x100 is no U8"
hurt "$e/case1/case1.sheet" 43 1; refuse 1 "$t/hurt" $case1; has err "row 1: U32 does not use b"
hurt "$e/case1/case1.sheet" 19 2; refuse 1 "$t/hurt" $case1; has err "row 0: the first child is 2, 1 is due"
hurt "$e/case1/case1.sheet" 23 2; refuse 1 "$t/hurt" $case1; has err "row 0: children up to row 2, there are 2 rows"
hurt "$e/case1/case1.sheet" 23 0; refuse 1 "$t/hurt" $case1; has err "row 1: not the child of an earlier row"
hurt "$e/hall/hall.sheet" "$(place "$e/hall/hall.sheet" bright)" 303
refuse 2 "$t/hurt" $hall; has err "row 44: byte 1 of its text is 0xC3"
{ printf '\0\0\0\1\7'; head -c 23 /dev/zero; } >"$t/number"
refuse 3 "$t/number" $case1; has err "row 0 is U32"

# wrong NUMBER TEXT: the schema file $t/hurt is refused.
wrong() { refuse "$1" "$e/case1/case1.sheet" --schema "$t/hurt"; has err "hurt: refusal"; has err "$2"; }
head -c 40 "$e/case1/case1.schema" >"$t/hurt"; wrong 4 "section PSCH at byte 0: length 44, 40 bytes to the end"
hurt "$e/case1/case1.schema" 7 7; wrong 4 "length 7, 44 bytes to the end"
hurt "$e/case1/case1.schema" 11 7; wrong 5 "an index of 7 entries in 44 bytes"
hurt "$e/case1/case1.schema" 19 52; wrong 5 "entry 1 of the index: definition 0x40 at 42 of 44 bytes"
hurt "$e/case1/case1.schema" 23 2; wrong 5 "with 2 members, section of 44 bytes"
hurt "$e/case1/case1.schema" 20 2; wrong 6 "definition 0x40 at 20: top byte 2"
refuse 7 "$e/case1/case1.sheet" $hall; has err "(type 0x40; $e/hall/hall.schema has 10 definitions)"
refuse 7 "$e/case1/case1.sheet" --schema "$t/nothing"; has err "nothing has 0 definitions)"
# One kind of file where another is due.
refuse 1 "$e/hall/hall.pso" $hall; has err "hall.pso: refusal 1: the sheet breaks its layout (this is a PSO file, a sheet is due)"
refuse 1 "$e/hall/hall.schema" $hall; has err "this is a PSO file, a sheet is due"
{ printf 'STRF\0\0\0\10'; cat "$e/hall/hall.pso"; } >"$t/strf"; refuse 1 "$t/strf" $hall; has err "this is a PSO file"
head -c 100 "$e/hall/hall.pso" >"$t/cut"; refuse 1 "$t/cut" $hall; has err "this is a PSO file"
printf 'STRF\0\0\0\7abcd' >"$t/text"; refuse 1 "$t/text" $hall; lacks err "PSO file"
{ printf 'STRF\0\220\0\0'; head -c 9437176 /dev/zero; } >"$t/longer"; refuse 1 "$t/longer" $hall; has err "this is a PSO file"
refuse 4 "$e/hall/hall.sheet" --schema "$e/hall/hall.sheet"; has err "this looks like a sheet, a schema file is due"
# A structure inline in itself.
cp "$e/case1/case1.sheet" "$t/null"; poke "$t/null" 28 0; poke "$t/null" 39 0
hurt "$e/case1/case1.schema" 36 14 0 0 0 0 0 0 100; refuse 8 "$t/null" --schema "$t/hurt"
has err "refusal 8: a structure would start at depth 33, inline in 32 others (structure 0x40, member 0x41: structure 0x40 would start there)"
refuse 9 "$e/case1/case1.sheet" $case1 --work 65544
has err "(row 0, the root: 0 are charged, 20 more would be, the cap is 0; --work gives more room, 16842760 is the most)"
refuse 12 "$e/case1/case1.sheet" $case1 --work 65543; has err "--work must be 65544 or more"
run 0 pack "$e/case1/case1.sheet" $case1 --work 65624 -o "$t/tight.pso"; same "$t/tight.pso" "$e/case1/case1.pso"
run 0 pack "$e/case1/case1.sheet" $case1 --work 999999999999 -o "$t/wide.pso"; same "$t/wide.pso" "$e/case1/case1.pso"
hurt "$e/hall/hall.sheet" "$(place "$e/hall/hall.sheet" bright)" 061 062 056 065 145 060
refuse 11 "$t/hurt" $hall; has err "hurt: refusal 11: a floating-point text other than a decimal of one to nine digits ("
has err '(row 44, structure 0xC8FDDC97, member 0x9F5ED20C: "12.5e0"; write it with nine digits at most and no exponent, or give a number)'
refuse 14 "$e/hall/hall.sheet" $hall --records 0; has err "there are 0 records; use --records with more"
run 0 pack "$e/hall/hall.sheet" $hall --records 1 -o "$t/one.pso"; same "$t/one.pso" "$e/hall/hall.pso"

# Of an Array it is the item that is one.
. cli/tests/scene.sh
member "0x0F 0 0 0"; holds "19 0x41 2 2" "15 0 0 1" "19 0 4 2" "7 0 1" "15 0 1 3"; printf 21e5 >>"$t/a.sheet"
refuse 11 "$t/a.sheet" --schema "$t/a.schema"; has err '(row 5, structure 0x40, member 0x41: "1e5"; '
member "8 0 0 0"; holds "19 0x41 2 2" "7 0 1" "15 0 0 3"; printf nan >>"$t/a.sheet"
refuse 11 "$t/a.sheet" --schema "$t/a.schema"; has err '(row 3, structure 0x40, member 0x41: "nan"; '

# Large scenes: more blocks than pointers reach, a pack that is too long, more remarks than records.
"$tools/large" "$t"
refuse 10 "$t/blocks.sheet" --schema "$t/blocks.schema"
has err "(row 4097, structure 0x40, member 0x41: block 4,096 would be needed, of name 0x1FFF)"
refuse 13 "$t/file.sheet" --schema "$t/file.schema"
refuse 14 "$t/remarks.sheet" --schema "$t/remarks.schema"; has err "there are 4,096 records"
run 0 pack "$t/remarks.sheet" --schema "$t/remarks.schema" --records 5000 -o "$t/many.pso"; has err "5,000 remarks"
has err "member 0x11387: member type 0x11 is not supported (row 5000)"
run 0 pack "$t/full.sheet" --schema "$t/full.schema" -o "$t/full.pso"; has err "full.pso: 4,1"
run 0 accept "$t/full.pso" --sheet "$t/full.sheet" --schema "$t/full.schema"; has out "full.pso: accepted"
