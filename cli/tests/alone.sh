# The root in a new last block: the packs of both ways, what accept says of each, where read finds the root, 10 and 13.
. cli/tests/scene.sh
other="built the other way, its root in a block"

# packed FILE SUMMARY WORDS...: the scene becomes $t/FILE.pso with these words. What is remarked and noted goes to $t/FILE.said.
packed() {
    file=$1 summary=$2; shift 2
    run 0 pack "$t/a.sheet" --schema "$t/a.schema" -o "$t/$file.pso" "$@"; empty out; has err "$file.pso: $summary"
    grep -v '\.pso: ' "$t/err" >"$t/$file.said" || true
}
# accepted FILE WORDS...: the pack is, with and without the schema file.
accepted() {
    file=$1; shift
    run 0 accept "$t/$file.pso" --sheet "$t/a.sheet" "$@"; has out "$file.pso: accepted"; lacks out FAIL
    run 0 accept "$t/$file.pso" --sheet "$t/a.sheet" --schema "$t/a.schema" "$@"; has out "$file.pso: accepted"; lacks out FAIL
}
# turned FILE WHY WORDS...: it is not, since it was built the other way.
turned() {
    file=$1 why="the pack was $other $2"; shift 2
    run 1 accept "$t/$file.pso" --sheet "$t/a.sheet" "$@"; has out "FAIL  rebuild from the pack's own schema: $why"
    has out "pass  block list against the data"; has out "pass  schema against scene"; has out "2 of 5 checks failed"
    run 1 accept "$t/$file.pso" --sheet "$t/a.sheet" --schema "$t/a.schema" "$@"
    has out "FAIL  rebuild from the pack's own schema: $why"; has out "FAIL  rebuild from the schema file: $why"
}
# at FILE TEXT START: where read finds the root.
at() {
    run 0 read "$t/$1.pso"; ok "$1: root: $2" grep -qx "root: $2" "$t/out"
    run 0 read "$t/$1.pso" --json; has out "  \"root_start\": $3,"
}
# both SUMMARY SUMMARY: the ordinary pack and the one with the root alone are two, each accepted in its way only.
both() {
    packed plain "$1"; packed alone "$2" --root-alone; same "$t/plain.said" "$t/alone.said"
    ok "16 bytes more" [ "$(wc -c <"$t/alone.pso")" = $(($(wc -c <"$t/plain.pso") + 16)) ]
    accepted plain; accepted alone --root-alone
    turned alone "of its own: give --root-alone"; turned plain "with other items: leave out --root-alone" --root-alone
}
# one SUMMARY: both ways give the same pack, which is accepted under both.
one() {
    packed plain "$1"; packed alone "$1" --root-alone; same "$t/plain.said" "$t/alone.said"; same "$t/plain.pso" "$t/alone.pso"
    accepted plain; accepted plain --root-alone
}
# hex FILE BYTES: the pack, as hexadecimal words.
hex() { ok "the bytes of $1" [ "$(od -An -v -tx1 "$t/$1.pso" | tr -d ' \n')" = "$(echo "$2" | tr -d ' \n' | tr A-F a-f)" ]; }

# A chain of two: the first is in the root's block, or the root has one of its own.
structure 0x40 8 "0x41 0x0C 3 0 0x40" >"$t/a.schema"
sheet "21 0 0x40 1 1" "21 0x41 0x40 2 0" >"$t/a.sheet"
both "108 bytes, 1 block, 1 definition, 0 remarks" "124 bytes, 2 blocks, 1 definition, 0 remarks"
at plain "block 1 of 1, at 0x8 of it" 8; at alone "block 2 of 2, at its start" 0
psch="50534348 0000002C 00000001 00000040 00000014 00000001 00000008 00000000 00000041 0C030000 00000040"
hex plain "5053494E 00000020 00000000 00000000 00000000 00000000 00000001 00000000 504D4150 00000020 00000001 00017070
    00000040 00000010 00000000 00000010 $psch"
hex alone "5053494E 00000020 00000000 00000000 00000000 00000000 00000001 00000000 504D4150 00000030 00000002 00027070
    00000040 00000010 00000000 00000008 00000040 00000018 00000000 00000008 $psch"
# In C: the output that each way needs; 0 is the ordinary way, and any other number the other.
"$tools/alone" "$t/a.sheet" "$t/a.schema" >"$t/out" 2>"$t/err"; has out "ordinary 108, alone 124, as expected"
# Every byte of it counts.
"$tools/every_byte" "$S" "$t/alone.pso" "$t/a.sheet" "$t/a.schema" "$t/hurt" --root-alone >"$t/out"; has out "372 changed, 0 not refused"
# The flag is for each of several sheets; what is read and written through pipes is the same.
cp "$t/a.sheet" "$t/b.sheet"
run 0 pack "$t/a.sheet" "$t/b.sheet" --schema "$t/a.schema" --root-alone --json; has err "2 packed"; has out '"root_alone": true'
for name in a b; do same "$t/$name.pso" "$t/alone.pso"; done
ok "both have two blocks" [ "$(grep -c '"length": 124, "blocks": 2, "definitions": 1,' "$t/out")" = 2 ]
"$S" pack - --schema "$t/a.schema" --root-alone <"$t/a.sheet" >"$t/piped" 2>"$t/err"; same "$t/piped" "$t/alone.pso"
# A pack with the root alone is a schema file too, of either way.
run 0 pack "$t/a.sheet" --schema "$t/alone.pso" -o "$t/again.pso"; same "$t/again.pso" "$t/plain.pso"
run 0 pack "$t/a.sheet" --schema "$t/plain.pso" --root-alone -o "$t/again.pso"; same "$t/again.pso" "$t/alone.pso"
# In JSON, and where nothing but the failed lines is told.
run 0 accept "$t/alone.pso" --sheet "$t/a.sheet" --root-alone --json; has out '"root_alone": true'; has out '"accepted": true'
run 1 accept "$t/alone.pso" --sheet "$t/a.sheet" --json; has out '"root_alone": false'; has out '"accepted": false'
has out "\"result\": \"fail\", \"text\": \"the pack was $other of its own: give --root-alone\"}"
run 1 accept "$t/plain.pso" --sheet "$t/a.sheet" --root-alone --quiet; has out "leave out --root-alone"; lacks out "pass"
# A pack that neither way gives is held against the way that is told; where the other gives one as long, that is said.
due="byte 16, in block 1, start 0x0, is 0x01, 0x00 is due"
# damaged FILE WAY OTHER TEXT: what is said of a pack of this way.
# shellcheck disable=SC2086
damaged() {
    cp "$t/$1.pso" "$t/hurt"; poke "$t/hurt" 16 1; shift
    run 1 accept "$t/hurt" --sheet "$t/a.sheet" --schema "$t/a.schema" $1; has out "from the schema file: $due"; lacks out "other way"
    run 1 accept "$t/hurt" --sheet "$t/a.sheet" --schema "$t/a.schema" $2; lacks out "the pack was built"
    has out "from the schema file: $due; one that was built the other way is as long, its root in a block $3"
}
damaged plain "" --root-alone "with other items: leave out --root-alone"
damaged alone --root-alone "" "of its own: give --root-alone"
# One block more is not of the other way where both ways are one.
run 0 pack "$e/case1/case1.sheet" --schema "$e/case1/case1.schema" -o "$t/hurt"; printf '\0\0\0\0\0\0\0\0\0\0\0\0\0\0\0\0' >>"$t/hurt"
run 1 accept "$t/hurt" --sheet "$e/case1/case1.sheet" --schema "$e/case1/case1.schema"; lacks out "the other way"

# One row: packing opens a block for the root anyway.
sheet "21 0 0x40 1 0" >"$t/a.sheet"
one "100 bytes, 1 block, 1 definition, 0 remarks"; at alone "block 1 of 1, at its start" 0
"$tools/alone" "$t/a.sheet" "$t/a.schema" >"$t/out" 2>"$t/err"; has out "ordinary 100, alone 100, as expected"

# Structures of no bytes: in the block that they share the root starts at 0 too, but it is not alone there.
structure 0x40 0 "0x41 0x0D 1 0 0x00010001" "0x100 0x0C 3 0 0x40" >"$t/a.schema"
sheet "21 0 0x40 1 1" "19 0x41 2 1" "21 0 0x40 3 0" >"$t/a.sheet"
both "104 bytes, 1 block, 1 definition, 1 remark" "120 bytes, 2 blocks, 1 definition, 1 remark"
at plain "block 1 of 1, at its start" 0; at alone "block 2 of 2, at its start" 0
has out '{"number": 1, "name": 64, "place": 16, "length": 0},'; has out '{"number": 2, "name": 64, "place": 16, "length": 0}'
run 0 pack "$t/a.sheet" --schema "$t/a.schema" --root-alone
has err "remark: $t/a.sheet: structure 0x40, member 0x41: the member does not fit the structure of 0 bytes (row 1)"
run 1 pack "$t/a.sheet" --schema "$t/a.schema" --root-alone --strict -o "$t/none.pso"; gone "$t/none.pso"; has err "1 remark, and --strict"

# A root of the name under which texts are filed.
structure 1 8 "0x41 0x0B 1 0 0" >"$t/a.schema"
sheet "21 0 1 1 1" "15 0x41 0 2" >"$t/a.sheet"; printf ab >>"$t/a.sheet"
both "103 bytes, 1 block, 1 definition, 0 remarks" "119 bytes, 2 blocks, 1 definition, 0 remarks"
at plain "block 1 of 1, at 0x3 of it" 3; has out '{"number": 1, "name": 1, "place": 16, "length": 11}'
at alone "block 2 of 2, at its start" 0
has out '{"number": 1, "name": 1, "place": 16, "length": 3},'; has out '{"number": 2, "name": 1, "place": 19, "length": 8}'

# Notes and rows are the same in both ways, and so are the other refusals.
structure 0x40 16 "0x41 0x0C 3 0 0x40" "0x42 2 0 8 0" >"$t/a.schema"
sheet "21 0 0x40 1 3" "21 0x41 0x40 4 0" "7 0x42 0x100" "7 0x43 1" >"$t/a.sheet"
both "136 bytes, 1 block" "152 bytes, 2 blocks"
ok "2 notes" [ "$(grep -c '^note: ' "$t/alone.said")" = 2 ]
run 1 pack "$t/a.sheet" --schema "$t/a.schema" --work 65544 --root-alone; has err "refusal 9: "
run 1 pack "$t/a.sheet" --schema "$t/a.schema" --work 65543 --root-alone; has err "refusal 12: "
run 1 pack "$t/a.sheet" --schema "$e/case1/case1.sheet" --root-alone; has err "refusal 4: "

# The examples' roots have blocks of their own.
for scene in case1 hall road; do
    cp "$e/$scene/$scene.sheet" "$t/a.sheet"; cp "$e/$scene/$scene.schema" "$t/a.schema"
    one ""; same "$t/alone.pso" "$e/$scene/$scene.pso"
done

# 10 counts the block that is added; where there is none the ways are one. A pack of 4,095 blocks has no room for it.
"$tools/large" "$t"
move() { cp "$t/$1.sheet" "$t/a.sheet"; cp "$t/$1.schema" "$t/a.schema"; }
refuses() { run 1 pack "$t/a.sheet" --schema "$t/a.schema" --root-alone -o "$t/none.pso"; empty out; gone "$t/none.pso"; has err "a.sheet: refusal $1: $2"; }
move most; one "196,600 bytes, 4,095 blocks"; at alone "block 4095 of 4095, at its start" 0
move own; packed plain "196,624 bytes, 4,095 blocks"; accepted plain
reason="an item's block number would be above 4,095, or its start above 0xFFFFF"
place="row 0, the root: block 4,096 would be needed, of name 0x40: the block added for the root counts"
refuses 10 "$reason ($place)"
run 1 accept "$t/plain.pso" --sheet "$t/a.sheet" --schema "$t/a.schema" --root-alone
has out "FAIL  schema against scene: building with the definitions of the schema file is refused: refusal 10: $reason ($place)"
has out "FAIL  rebuild from the pack's own schema: the pack was $other with other items: leave out --root-alone"
has out "FAIL  rebuild from the schema file: the pack was $other with other items: leave out --root-alone"
# Another item's 10 does not speak of it.
run 1 pack "$t/blocks.sheet" --schema "$t/blocks.schema" --root-alone; has err "block 4,096 would be needed, of name 0x1FFF)"
# 13: the longest pack has no room for a row more.
move brim; packed plain "16,777,216 bytes, 23 blocks"; refuses 13 "the file is longer"
run 1 accept "$t/plain.pso" --sheet "$t/a.sheet" --root-alone
has out "FAIL  rebuild from the pack's own schema: the pack was $other with other items: leave out --root-alone"
# Only ordinary building is refused with 10 for a start: the root has no bytes, and its type's block is as long as one can be.
{ structure 1 0 "0x100 0x0C 3 0 0x50" "0x41 0x0D 1 0 0x00010000"; structure 0x50 16 "0x100 0x0B 0 0 0x80000000" "0x51 0x0D 0 0 0"; } >"$t/a.schema"
{ words 36; rows "21 0 1 1 1" "19 0x41 2 1" "21 0 0x50 3 1" "19 0x51 4 32"; k=0; while [ $k -lt 32 ]; do rows "15 0"; k=$((k + 1)); done; } >"$t/a.sheet"
run 1 pack "$t/a.sheet" --schema "$t/a.schema" -o "$t/none.pso"; gone "$t/none.pso"
has err "refusal 10: $reason (row 0, the root: start 0x100000 would be needed in block 1, of name 0x1)"
packed alone "1,048,772 bytes, 3 blocks" --root-alone; accepted alone --root-alone; at alone "block 3 of 3, at its start" 0
run 1 accept "$t/alone.pso" --sheet "$t/a.sheet" --schema "$t/a.schema"
has out "FAIL  rebuild from the pack's own schema: the pack was $other of its own: give --root-alone"
has out "FAIL  rebuild from the schema file: the pack was $other of its own: give --root-alone"
