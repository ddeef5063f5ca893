# Notes: what is left out without a remark. They change neither the pack, nor the remarks, nor the exit status.
. cli/tests/scene.sh

# notes LINE...: the scene is packed with these notes and no others; quiet drops them and gives the same pack.
notes() {
    run 0 pack "$t/a.sheet" --schema "$t/a.schema"
    for line in "$@"; do echo "note: $t/a.sheet: $line"; done >"$t/due"
    grep '^note: ' "$t/err" >"$t/said" || true
    same "$t/said" "$t/due"
    run 0 pack "$t/a.sheet" --schema "$t/a.schema" --quiet -o "$t/b.pso"; lacks err "note: "; same "$t/a.pso" "$t/b.pso"
}
it="structure 0x40, member 0x41"

# A value that its structure does not have, and a second one of a name.
member "6 0 0 0"
sheet "21 0 0x40 1 3" "7 0x42 1" "7 0x41 2" "7 0x41 3" >"$t/a.sheet"
notes "row 1, structure 0x40, member 0x42: the structure has no such member; the value is left out" \
    "row 3, $it: an earlier value has the same name; this one is left out"
bare; notes
# A number and its width: as long as its bits are there, with a sign or without, nothing is lost.
for kind in 0 1 2; do
    member "$kind 0 0 0"
    holds "7 0x41 0x100"; notes "row 1, $it: the number is cut to the member's width"
    holds "7 0x41 0xFF"; notes
    holds "2 0x41 0xFFFFFFFF"; notes
    holds "6 0x41 0xFFFFFF7F"; notes "row 1, $it: the number is cut to the member's width"
done
member "4 0 0 0"; holds "7 0x41 0x10000"; notes "row 1, $it: the number is cut to the member's width"
member "6 0 0 0"; holds "8 0x41 1 0"; notes "row 1, $it: the number is cut to the member's width"
holds "8 0x41 0xFFFFFFFF 0x80000000"; notes
member "0x20 0 0 0"; holds "9 0x41 0xFFFFFFFF 0xFFFFFFFF"; notes
member "0x0B 7 0 0"; holds "9 0x41 1 2"; notes "row 1, $it: the number is cut to the member's width"
member "0x0E 2 0 0"; holds "7 0x41 0x100"; notes "row 1, $it: the number is cut to the member's width"
member "0x0F 1 0 0"; holds "17 0x41 0x10000"; notes "row 1, $it: the number is cut to the member's width"
# A name's value is its entry's, and a text that stands for a hash is not cut.
{ structure 0x40 24 "0x41 0x0E 2 0 0x70"; printf PSCH; words 32 1 0x70 20 $((1 << 24 | 1)) 0xCA2E9442 1; } >"$t/a.schema"
holds "14 0x41 0xCA2E9442"; notes
holds "14 0x41 0xCA2E9443"; notes "row 1, $it: the number is cut to the member's width"
member "0x0B 7 0 0"; holds "15 0x41 0 11"; printf 99999999999 >>"$t/a.sheet"; notes
# Flags may be Arrays: each number has four bytes.
member "0x0F 0 0 0"; holds "19 0x41 2 2" "19 0 4 1" "7 0 1" "9 0 1 0"; notes "row 4, $it: the number is cut to the member's width"
# A fraction: 1.5 in an integer's place, 1.0 there, 1.5 in a float's.
member "5 0 0 0"; holds "10 0x41 0x3FC00000"; notes "row 1, $it: the number's fraction is dropped"
holds "10 0x41 0x3F800000"; notes
member "7 0 0 0"; holds "10 0x41 0x3FC00000"; notes
# More numbers than a vector holds.
member "8 0 0 0"; holds "12 0x41 1 2 3"; notes "row 1, $it: there are more numbers than the vector holds; the last are left out"
holds "19 0x41 2 3" "7 0 1" "7 0 2" "7 0 3"; notes "row 1, $it: there are more numbers than the vector holds; the last are left out"
member "0x0A 0 0 0"; holds "11 0x41 1 2"; notes
# A text and its room, which has a closing zero.
member "0x0B 0 0 0x40000"; holds "15 0x41 0 4"; printf abcd >>"$t/a.sheet"; notes "row 1, $it: the text is cut to its room"
holds "15 0x41 0 3"; printf abc >>"$t/a.sheet"; notes
array "0x0B 0 0 0x40000"; holds "19 0x41 2 2" "15 0 0 4" "15 0 4 1"; printf abcde >>"$t/a.sheet"
notes "row 2, $it: the text is cut to its room"
# An embedded array and its count.
structure 0x40 24 "0x100 6 0 0 0" "0x41 0x0D 1 0 0x20000" >"$t/a.schema"
holds "19 0x41 2 3" "7 0 1" "7 0 2" "7 0 3"; notes "row 1, $it: there are more items than the array holds; the last are left out"
holds "19 0x41 2 2" "7 0 1" "7 0 2"; notes
# A run that vanishes for one element.
array "6 0 0 0"; holds "19 0x41 2 3" "7 0 1" "18 0" "7 0 3"; notes "row 1, $it: row 3 is no such element, so the array is left out"
array "0x0B 7 0 0"; holds "19 0x41 2 1" "18 0"; notes "row 1, $it: row 2 is no such element, so the array is left out"
# Elements by pointer that are none.
array "0x0C 3 0 0x40"; holds "19 0x41 2 2" "7 0 1" "0 0"; notes "row 2, $it: the element is no structure; its pointer is zero"
array "0x0B 1 0 0"; holds "19 0x41 2 2" "7 0 1" "0 0"; notes "row 2, $it: the element is no text; an empty one stands for it"
# A pair structure with one member.
structure 0x40 24 "0x100 0x0C 0 0 0x50" "0x41 0x10 1 0 0" >"$t/a.schema"; structure 0x50 4 "0x51 6 0 0 0" >>"$t/a.schema"
holds "20 0x41 2 1" "7 0 1" "7 0 2"; notes "row 3: the pair structure 0x50 has no member for it; it is left out"

# In JSON all of them; on the terminal fifty, and how many more.
{ words 61; rows "21 0 0x40 1 60"; k=0; while [ $k -lt 60 ]; do rows "7 $((0x100000 + k)) 1"; k=$((k + 1)); done; } >"$t/a.sheet"
member "6 0 0 0"; run 0 pack "$t/a.sheet" --schema "$t/a.schema" --json; has err "a.sheet: and 10 notes more; --json has all"
ok "50 notes are told" [ "$(grep -c 'no such member' "$t/err")" = 50 ]
ok "60 notes in JSON" [ "$(grep -o 'no such member' "$t/out" | wc -l)" = 60 ]
# Neither is a note a remark.
run 0 pack "$t/a.sheet" --schema "$t/a.schema" --strict
run 0 accept "$t/a.pso" --sheet "$t/a.sheet" --schema "$t/a.schema"; lacks out "note: "
