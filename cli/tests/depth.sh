# Depth counts structures inline in one another, to 32; by pointer, in a run or as a map's pair it starts again at 1.
road=$e/road/road

# More structures than that, each pointed to by the one before.
run 0 pack "$road.sheet" --schema "$road.schema" -o "$t/road.pso"; same "$t/road.pso" "$road.pso"; empty out
has err "road.pso: 832 bytes, 2 blocks, 2 definitions, 0 remarks"
run 0 pack "$road.sheet" --schema "$road.pso" -o "$t/again.pso"; same "$t/again.pso" "$road.pso"
run 0 accept "$road.pso" --sheet "$road.sheet" --schema "$road.schema"; empty err; lacks out FAIL
has out "pass  pointers followed: 40 pointers"; has out "road.pso: accepted"
run 0 read "$road.pso" --names "$road.names"; empty err
has out "root: block 2"; has out "  1  name 0xF791B271 (Segment), place 16, 640 bytes"
has out "0x4BCD2941 (next): type 0x0C structure, subtype 3, offset 8, reference 0xF791B271 (Segment)"
run 0 dump "$road.sheet" --names "$road.names"; has out "(segment_40)"
# The pointer of the 33rd segment.
cp "$road.pso" "$t/hurt"; poke "$t/hurt" 139 0
run 1 accept "$t/hurt" --sheet "$road.sheet" --schema "$road.schema"
has out "FAIL  pointers followed: row 101, structure 0xF791B271, member 0x4BCD2941: byte 136 of the file (block 1, start 0x78) says no block; block 1, start 0x60 is due"

# nest NAME COUNT: so many structures, each inline in the one before, of the names from NAME on.
. cli/tests/scene.sh
nest() {
    at=$(($1)) last=$(($1 + $2 - 1))
    while [ $at -lt $last ]; do structure $at 0 "0x41 0x0C 0 0 $((at + 1))"; at=$((at + 1)); done
    structure $last 0
}
nest 0x40 32 >"$t/32.schema"; nest 0x40 33 >"$t/33.schema"; bare
deep="refusal 8: a structure would start at depth 33, inline in 32 others"
here="(structure 0x5F, member 0x41: structure 0x60 would start there)"
run 0 pack "$t/a.sheet" --schema "$t/32.schema" -o "$t/32.pso"; has err "32.pso: 1,072 bytes, 1 block, 32 definitions, 0 remarks"
run 0 accept "$t/32.pso" --sheet "$t/a.sheet" --schema "$t/32.schema"; has out "32.pso: accepted"
run 1 pack "$t/a.sheet" --schema "$t/33.schema" -o "$t/33.pso"; has err "a.sheet: $deep $here"; empty out; gone "$t/33.pso"
run 1 pack "$t/a.sheet" --schema "$t/33.schema" -o "$t/33.pso" --json; has out '"code": 8'; has out "$deep $here"; gone "$t/33.pso"
run 1 accept "$t/32.pso" --sheet "$t/a.sheet" --schema "$t/33.schema"
has out "FAIL  rebuild from the schema file: building with the definitions of the schema file is refused: $deep $here"
# Before the charge, where both are met at one structure.
work=$((65536 + 8 * 33 + 4 * 32 * 16))
run 1 pack "$t/a.sheet" --schema "$t/33.schema" --work $work; has err "refusal 8:"
run 1 pack "$t/a.sheet" --schema "$t/33.schema" --work $((work - 1)); has err "refusal 9:"

# again WAY: the root of $t/a.schema leads to a nest of 32 from 0x400 on, with the rows of $t/a.sheet; not to one of 33.
again() {
    mv "$t/a.schema" "$t/way"
    { cat "$t/way"; nest 0x400 32; } >"$t/a.schema"
    run 0 pack "$t/a.sheet" --schema "$t/a.schema"
    ok "$1" [ -s "$t/a.pso" ]
    run 0 accept "$t/a.pso" --sheet "$t/a.sheet" --schema "$t/a.schema"; rm -f "$t/a.pso"
    { cat "$t/way"; nest 0x400 33; } >"$t/a.schema"
    run 1 pack "$t/a.sheet" --schema "$t/a.schema"; gone "$t/a.pso"
    has err "$deep (structure 0x41F, member 0x41: structure 0x420 would start there)"
}
member "0x0C 3 0 0x400"; holds "21 0x41 0x400 2 0"; again "by pointer"
holds "19 0x41 2 2" "0 0" "21 0 0x400 4 0"
array "0x0C 0 0 0x400"; again "in a run"
array "0x0C 3 0 0x400"; again "in a run of pointers"
structure 0x40 24 "0x100 0x0C 0 0 0x400" "0x41 0x0D 1 0 0x20000" >"$t/a.schema"; again "in an embedded run"
structure 0x40 24 "0x100 0x0C 3 0 0x400" "0x41 0x0D 1 0 0x20000" >"$t/a.schema"; again "in an embedded run of pointers"
structure 0x40 24 "0x100 0x0C 0 0 0x400" "0x41 0x10 1 0 0" >"$t/a.schema"; holds "20 0x41 2 1" "0 0" "0 0"; again "as a map's pair"
# Inline in the root the nest is one too deep already.
member "0x0C 0 0 0x400"; bare; nest 0x400 32 >>"$t/a.schema"
run 1 pack "$t/a.sheet" --schema "$t/a.schema"; has err "$deep (structure 0x41E, member 0x41: structure 0x41F would start there)"

# chain COUNT: so many structures by pointer; the sheet's levels are the end.
chain() {
    words $1; at=0
    while [ $at -lt $1 ]; do at=$((at + 1)); rows "21 $((at > 1 ? 0x41 : 0)) 0x40 $at $((at < $1))"; done
}
member "0x0C 3 0 0x40"; chain 64 >"$t/a.sheet"; chain 65 >"$t/b.sheet"
run 0 pack "$t/a.sheet" --schema "$t/a.schema"; has err "a.pso: 1,628 bytes"
run 0 accept "$t/a.pso" --sheet "$t/a.sheet" --schema "$t/a.schema"; has out "pass  pointers followed: 63 pointers"
run 1 pack "$t/b.sheet" --schema "$t/a.schema"; has err "refusal 1: the sheet breaks its layout (row 64: level 65, at most 64 are allowed)"
