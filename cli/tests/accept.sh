# Acceptance, line by line, of good packs and of packs with one thing wrong.
hall=$e/hall/hall
of_hall="--sheet $hall.sheet"
with_schema="$of_hall --schema $hall.schema"
T=$tools/tamper

run 0 accept "$e/case1/case1.pso" --sheet "$e/case1/case1.sheet"; empty err
sed 's/^.*case1.pso: /FILE: /' "$t/out" >"$t/shown"; same "$t/shown" "cli/tests/case1.accept"
run 0 accept "$hall.pso" $with_schema; lacks out FAIL
has out "pass  pointers followed: 13 pointers"
has out "pass  rebuild from the schema file: the same 1,244 bytes"
has out "hall.pso: accepted"; lacks out "not compared"
has out "remark: structure 0xC8FDDC97, member 0x9F5ED20C: value is not a float (row 44)"
# Without the schema file its definitions are not compared, and the rebuild's remarks are shown.
run 0 accept "$hall.pso" $of_hall
has out "hall.pso: accepted, definitions not compared: no --schema"
has out "remark: structure 0xC8FDDC97, member 0x9F5ED20C: value is not a float (row 44)"
run 0 accept "$hall.pso" $of_hall --quiet; lacks out pass; lacks out remark
run 0 accept --help; has out "--schema"; has out "cannot be compared"
"$S" accept - $of_hall <"$hall.pso" >"$t/out" 2>"$t/err"; has out "standard input: accepted"

# wrong TEXT: $t/hurt is not accepted as the hall's pack, at this line.
wrong() { run 1 accept "$t/hurt" $of_hall; has out "FAIL  $1"; has out "hurt: not accepted"; empty err; }
# refused TEXT: nor with the schema file.
refused() { run 1 accept "$t/hurt" $with_schema; has out "FAIL  $1"; has out "hurt: not accepted"; }
# passes LINE: the line passed.
passes() { has out "pass  $1"; }
# hurt PLACE OCTAL...: the hall's pack with other bytes. tampered WHAT...: another thing wrong with it.
hurt() { cp "$hall.pso" "$t/hurt"; poke "$t/hurt" "$@"; }
tampered() { "$T" "$hall.pso" "$t/hurt" "$@"; }

# Sections end to end: what broke off, what is behind, what is out of order.
printf 'no pack' >"$t/hurt"
wrong "sections end to end: refusal 15: the magic PSIN is missing"; has out "the rest was not checked"
cp "$hall.schema" "$t/hurt"; wrong "sections end to end: refusal 15: the magic PSIN is missing (this is a schema file, a pack is due)"
for n in 1 600; do tampered cut $n; wrong "sections end to end: refusal 4"; done
tampered cut 656; wrong "sections end to end: PSCH is missing"
tampered cut 816; run 1 accept "$t/hurt" $of_hall; has out "refusal 18: there is no PMAP"
{ cat "$hall.pso"; printf 'abc'; } >"$t/hurt"
wrong "sections end to end: 3 bytes behind the last section, at byte 1244"
passes "pointers followed"; passes "schema against scene"
has out "FAIL  rebuild from the pack's own schema: the pack has 1,247 bytes, 1,244 are due"
{ cat "$hall.pso"; printf 'STRF\0\0\0\10'; } >"$t/hurt"
wrong "sections end to end: a fourth section, STRF, at byte 1244"
{ head -c 428 "$hall.pso"; tail -c +589 "$hall.pso"; tail -c +429 "$hall.pso" | head -c 160; } >"$t/hurt"
wrong "sections end to end: section 2 at byte 428 is PSCH, PMAP is due"
{ cat "$hall.pso"; printf 'JUNK\1\0\0\0'; head -c 16777208 /dev/zero; } >"$t/hurt"
wrong "sections end to end: 16,778,460 bytes, no pack has more than 16,777,216"; rm "$t/hurt"

# Block list against the data: bytes that no block owns, or two. The list starts at 444, a row has 16 bytes.
tampered gap 3 8; wrong "block list against the data: block 4 of name 0x2257EBB9 is at 128, 120 is due"
passes "sections end to end"; passes "pointers followed: 13 pointers"
tampered gap 9 4; wrong "block list against the data: the last block ends at 428, the data at 432"
hurt 467 61; wrong "block list against the data: block 2 of name 0x26A06AAC is at 49, 64 is due"
hurt 439 12; wrong "block list against the data: the root is block 10, there are 9"
hurt 587 311; wrong "block list against the data: the last block ends at 429, the data at 428"
hurt 439 0; wrong "block list against the data: the root is block 0, there are 9"
hurt 441 12; wrong "block list against the data: refusal 16: PMAP is too short"; passes "sections end to end"; has out "the rest was not checked"

# Pointers followed. The root starts at 228: title at 8, entrance at 96, lamps at 104, seats' pairs at 184.
pointer() { wrong "pointers followed: $1"; passes "sections end to end"; passes "block list"; passes "schema against scene"; }
title="row 2, structure 0x2FC89E62, member 0x72AAD81D: byte 236 of the file (block 9, start 0x8) says"
entrance="row 10, structure 0x2FC89E62, member 0x372FCFD6: byte 324 of the file (block 9, start 0x60) says"
hurt 327 3; pointer "$entrance block 3, start 0x0; block 2, start 0x0 is due"
hurt 327 6; pointer "$entrance block 6, start 0x0; block 2, start 0x0 is due"
hurt 327 0; pointer "$entrance no block; block 2, start 0x0 is due"
hurt 325 1; pointer "$entrance block 2, start 0x10; block 2, start 0x0 is due"
hurt 238 20; pointer "$title block 1, start 0x1; block 1, start 0x0 is due"
hurt 239 15; pointer "$title block 13, start 0x0; block 1, start 0x0 is due"
hurt 237 377; pointer "$title block 1, start 0xFF0; block 1, start 0x0 is due"
hurt 238 20; poke "$t/hurt" 327 0; pointer "$title block 1, start 0x1; block 1, start 0x0 is due; and 1 more"
# A count beside a pointer, and one pointer further down: a door's label.
hurt 341 3; pointer "row 11, structure 0x2FC89E62, member 0xFC810C56: byte 340 of the file (block 9, start 0x70) says counts 3 and 2; 2 and 2 are due"
hurt 74 220; pointer "row 20, structure 0x26A06AAC, member 0xCDE429DD: byte 72 of the file (block 2, start 0x8) says block 1, start 0x19; block 1, start 0x18 is due"
# A root's block that is too long, the others being right.
"$T" "$hall.pso" "$t/long" gap 9 4; "$T" "$t/long" "$t/hurt" word 588 204
wrong "pointers followed: byte 440 of the file, the root's block number, says 9, a block of 204 bytes; 200 bytes are due"; lacks out more; passes "block list"
# The root's number, and the name that a block bears.
hurt 439 3; wrong "pointers followed: byte 436 of the file, the root's block number, says 3; 9 is due"; passes "block list"
hurt 463 255; wrong "pointers followed: $entrance block 2, start 0x0, of name 0x26A06AAD; name 0x26A06AAC is due"
# With the schema file the same, along its definitions.
hurt 327 3; refused "pointers followed: $entrance block 3, start 0x0; block 2, start 0x0 is due"

# Another block of the same name.
"$tools/scenes" "$t"
run 0 pack "$t/two.sheet" --schema "$t/two.schema"
run 0 accept "$t/two.pso" --sheet "$t/two.sheet"; passes "pointers followed: 3 pointers"
at=$((16 + 600000 + 600000)); cp "$t/two.pso" "$t/hurt"; "$T" "$t/two.pso" "$t/hurt" word $((at + 8)) 1
run 1 accept "$t/hurt" --sheet "$t/two.sheet"
has out "FAIL  pointers followed: row 3, structure 0x40, member 0x41: byte 1200024 of the file (block 3, start 0x8) says block 1, start 0x0; block 2, start 0x0 is due"

# Members that share bytes: what the rebuilt pack has too is no fault.
run 0 pack "$t/shared.sheet" --schema "$t/shared.schema"
run 0 accept "$t/shared.pso" --sheet "$t/shared.sheet" --schema "$t/shared.schema"; passes "pointers followed: 2 pointers"
place=$(place "$t/shared.pso" "$(printf '\336\255\276\357')"); cp "$t/shared.pso" "$t/hurt"; poke "$t/hurt" "$place" 0
run 1 accept "$t/hurt" --sheet "$t/shared.sheet"
has out "FAIL  pointers followed: row 1, structure 0x40, member 0x41: byte $place of the file"

# A pointer where none is due: a structure's pointer to itself, the last one zero.
cp "$e/case1/case1.schema" "$t/ring.schema"; poke "$t/ring.schema" 27 10; poke "$t/ring.schema" 36 14 3 0 0 0 0 0 100
cp "$e/case1/case1.sheet" "$t/ring.sheet"; poke "$t/ring.sheet" 28 25; poke "$t/ring.sheet" 36 0 0 0 100 0 0 0 2
run 0 pack "$t/ring.sheet" --schema "$t/ring.schema"
run 0 accept "$t/ring.pso" --sheet "$t/ring.sheet"; passes "pointers followed: 1 pointer"
poke "$t/ring.pso" 16 0 0 200 1
run 1 accept "$t/ring.pso" --sheet "$t/ring.sheet"
has out "FAIL  pointers followed: structure 0x40, member 0x41: byte 16 of the file (block 1, start 0x0) says block 1, start 0x8; no block is due"
# A count where no run is.
run 0 pack "$t/none.sheet" --schema "$t/none.schema"; cp "$t/none.pso" "$t/hurt"; poke "$t/hurt" 25 1
run 1 accept "$t/hurt" --sheet "$t/none.sheet"
has out "FAIL  pointers followed: row 1, structure 0x40, member 0x41: byte 24 of the file (block 1, start 0x8) says counts 1 and 0; 0 and 0 are due"

# Where building is refused, the names of the blocks are due all the same.
cp "$hall.sheet" "$t/float.sheet"; poke "$t/float.sheet" "$(place "$hall.sheet" bright)" 061 062 056 065 145 060
by_name() { run 1 accept "$t/hurt" --sheet "$t/float.sheet"; has out "refusal 11"; has out "$1"; }
cp "$hall.pso" "$t/hurt"; by_name "pass  pointers followed: 13 pointers, by the names of their blocks alone"
hurt 327 3; by_name "FAIL  pointers followed: $entrance block 3, start 0x0, of name 0xC8FDDC97; name 0x26A06AAC is due"
hurt 325 1; by_name "FAIL  pointers followed: $entrance block 2, start 0x10; 16 bytes are due there, 0 are left"
hurt 327 0; by_name "FAIL  pointers followed: $entrance no block, which is not in the data; a block of name 0x26A06AAC is due"
hurt 439 3; by_name "FAIL  pointers followed: byte 436 of the file, the root's block number, says 3, a block of name 0xC8FDDC97; 0x2FC89E62 is due"

# A scene that cannot be followed to its end: pointers are not judged by what was laid so far.
run 1 accept "$t/stopped.pso" --sheet "$t/stopped.sheet"
has out "FAIL  pointers followed: building with the definitions of the pack is refused: refusal 11"

# Schema against scene: each definition left behind, with the schema file ..
left_out() { tampered remove "$1"; refused "schema against scene: $2 is used by the scene (row $3) and is not in the pack"; }
left_out 0xC496E4A8 "structure 0xC496E4A8" 9
left_out 0x26A06AAC "structure 0x26A06AAC" 10; passes "pointers followed: 13 pointers"; lacks out "by the names"
left_out 0xC8FDDC97 "structure 0xC8FDDC97" 21
left_out 0x2257EBB9 "structure 0x2257EBB9" 23; left_out 0x1CF0BF61 "structure 0x1CF0BF61" 24
left_out 0x15F3F6FB "structure 0x15F3F6FB" 35; left_out 0x9C7067EA "enum 0x9C7067EA" 7
left_out 0x1CD650E7 "enum 0x1CD650E7" 8; left_out 0x2FC89E62 "structure 0x2FC89E62" 0
# .. and without it, where that shows: remarks 4, 8 and 7 of the rebuild, and a Struct of its own type, row 24.
unseen() { tampered remove "$1"; wrong "schema against scene: structure $1 has no definition in the pack ($2)"; }
unseen 0xC496E4A8 "row 9, structure 0x2FC89E62, member 0xEA4FA166"
unseen 0x26A06AAC "row 10, structure 0x2FC89E62, member 0x372FCFD6"
unseen 0xC8FDDC97 "row 11, structure 0x2FC89E62, member 0xFC810C56"
unseen 0x15F3F6FB "row 16, structure 0x2FC89E62, member 0xF977AF0D"
passes "pointers followed: 12 pointers, by the names of their blocks alone"
unseen 0x1CF0BF61 "row 24, structure 0x2FC89E62, member 0x8856F65A"; passes "pointers followed: 13 pointers, by the names of their blocks alone"
# An enum that the rebuild does without shows with the schema file alone.
run 0 pack "$e/case1/case1.sheet" --schema "$e/case1/case1.schema" -o "$t/case1.pso"
cp "$e/case1/case1.schema" "$t/enum.schema"; poke "$t/enum.schema" 36 16 0 0 0 0 0 0 102
printf 'PSCH\0\0\0\44\0\0\0\1\0\0\0\102\0\0\0\24\1\0\0\1\0\0\0\103\0\0\0\7' >>"$t/enum.schema"
poke "$t/enum.schema" 51 40
run 0 pack "$e/case1/case1.sheet" --schema "$t/enum.schema" -o "$t/enum.pso"
"$T" "$t/enum.pso" "$t/hurt" remove 0x42
run 0 accept "$t/hurt" --sheet "$e/case1/case1.sheet"; has out "accepted, definitions not compared: no --schema"
run 1 accept "$t/hurt" --sheet "$e/case1/case1.sheet" --schema "$t/enum.schema"
has out "FAIL  schema against scene: enum 0x42 is used by the scene (row 1) and is not in the pack"
passes "rebuild from the pack's own schema"
# An enum's entries, and how many there are.
enums="--sheet $e/case1/case1.sheet --schema $t/other"
for change in "75 4:entry 1, 0x43: value 7 and 4" "71 104:entry 1 is 0x43 and 0x44" "67 0:1 and 0 entries"; do
    cp "$t/enum.schema" "$t/other"
    # shellcheck disable=SC2086
    poke "$t/other" ${change%%:*}
    run 1 accept "$t/enum.pso" $enums; has out "enum 0x42 of the pack and of the schema file differ (row 1): ${change#*:}"
done
# What needs no definition: a Struct of type 0 by pointer, which is of the reference's, and an embedded array without
# elements.
run 0 pack "$t/needless.sheet" --schema "$t/needless.schema"
run 0 accept "$t/needless.pso" --sheet "$t/needless.sheet"; passes "schema against scene: 1 structure, 0 enums"
has out "remark: structure 0x40, member 0x42: no definition of the array's element structure 0x50 (row 2)"

# Added, doubled, altered; another scene.
tampered add 0x77; wrong "schema against scene: structure 0x77 at byte "; has out "is not used by the scene"
refused "schema against scene: structure 0x77 at byte "
tampered double 0xC8FDDC97; wrong "schema against scene: structure 0xC8FDDC97 is in the pack twice, the second time at byte "
hurt 672 2; wrong "schema against scene: refusal 6: a definition's top byte is neither 0 nor 1"; passes "sections end to end"
hurt 598 1; wrong "schema against scene: refusal 5"
tampered more 0xC496E4A8; refused "schema against scene: structure 0xC496E4A8 of the pack and of the schema file differ (row 9): 3 and 2 members"
cat "$hall.pso" "$t/spare.schema" >"$t/hurt"; wrong "schema against scene: structure 0x1000 at byte 1656 is not used by the scene; and 49 more"
cat "$hall.pso" "$e/case1/case1.schema" >"$t/hurt"; wrong "schema against scene: structure 0x40 at byte 1264 is not used by the scene"
cp "$e/case1/case1.schema" "$t/other"; poke "$t/other" 36 5
run 1 accept "$e/case1/case1.pso" --sheet "$e/case1/case1.sheet" --schema "$t/other"
has out "FAIL  schema against scene: structure 0x40 of the pack and of the schema file differ (row 0): member 1, 0x41: type 0x6 and 0x5"
passes "rebuild from the pack's own schema"
has out "FAIL  rebuild from the schema file: byte 88, in PSCH, byte 36 of it, is 0x06, 0x05 is due"
for change in "21 5:unknown byte 0 and 5" "27 10:size 4 and 8" "35 102:member 1 is 0x41 and 0x42" "37 1:subtype 0x0 and 0x1" "39 1:offset 0x0 and 0x1" "43 7:reference 0x0 and 0x7"; do
    cp "$e/case1/case1.schema" "$t/other"
    # shellcheck disable=SC2086
    poke "$t/other" ${change%%:*}
    run 1 accept "$e/case1/case1.pso" --sheet "$e/case1/case1.sheet" --schema "$t/other"; has out "${change#*:}"
done
run 1 accept "$hall.pso" --sheet "$e/case1/case1.sheet"
has out "FAIL  schema against scene: building with the definitions of the pack is refused: refusal 7: the root type has no definition (type 0x40; the pack has 9 definitions)"
run 1 accept "$e/case1/case1.pso" --sheet "$e/case1/case1.sheet" --schema "$hall.schema"
has out "FAIL  schema against scene: building with the definitions of the schema file is refused: refusal 7"; passes "pointers followed"

# A number that no pointer and no definition shows.
rebuilt() { wrong "rebuild from the pack's own schema: $1"; passes "pointers followed"; passes "schema against scene"; has out "1 of 5 checks failed"; }
hurt 231 1; rebuilt "byte 231, in block 9, start 0x3, is 0x01"
hurt 8 1; rebuilt "byte 8, in PSIN, byte 8 of it, is 0x01, 0x00 is due"
hurt 442 0; rebuilt "byte 442, in PMAP, byte 14 of it, is 0x00, 0x70 is due"
hurt 20 101; rebuilt "byte 20, in block 1, start 0x4, is 0x41, 0x68 is due"; refused "rebuild from the schema file: byte 20, in block 1, start 0x4"

# What could not be checked: exit status 2. A broken sheet or schema file says nothing about the pack.
head -c 40 "$e/case1/case1.sheet" >"$t/short"
run 2 accept "$e/case1/case1.pso" --sheet "$t/short"
has out "????  rebuild from the pack's own schema: the sheet is refused: refusal 1: the sheet breaks its layout (2 rows need 52 bytes, there are 40)"
has out "case1.pso: could not be checked, 3 of 5 checks could not be made"
head -c 40 "$e/case1/case1.schema" >"$t/short"
run 2 accept "$e/case1/case1.pso" --sheet "$e/case1/case1.sheet" --schema "$t/short"
has out "????  schema against scene: the schema file is refused: refusal 4"; passes "rebuild from the pack's own schema"
for f in "$t/none --sheet $hall.sheet" "$hall.pso --sheet $t/none" "$hall.pso $of_hall --schema $t/none" "$t --sheet $hall.sheet"; do
    # shellcheck disable=SC2086
    run 2 accept $f; empty out; lacks err "try: sandvurek"
done
run 2 accept "$hall.pso"; has err "try: sandvurek"
got=0; "$S" accept - $of_hall <&- >"$t/out" 2>"$t/err" || got=$?; ok "status $got" [ "$got" = 2 ]; has err "standard input: it is closed"

# JSON.
run 0 accept "$hall.pso" $of_hall --json; empty err
has out '"accepted": true'; has out '"verdict": "accepted, definitions not compared: no --schema"'; has out '"schema": null'
has out '{"check": "block list against the data", "result": "pass", "text": "9 blocks, root in block 9"}'
has out '"rows": [44]'
if command -v python3 >/dev/null 2>&1; then ok "the JSON is sound" python3 -m json.tool "$t/out"; fi
hurt 327 3; run 1 accept "$t/hurt" $with_schema --json; has out '"accepted": false'; has out '"result": "fail"'
has out '"schema": "examples/hall/hall.schema"'

# Random scenes, and every byte of a pack.
"$tools/random" "$S" "$t" 900 >"$t/out"; has out "900 packed and accepted, 300 with the schema file, "; has out " in one way, 0 not"; lacks out " 0 in one way"
"$tools/every_byte" "$S" "$hall.pso" "$hall.sheet" "$hall.schema" "$t/hurt" >"$t/out"; has out "3732 changed, 0 not refused"
