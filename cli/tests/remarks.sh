# Remarks: each of the 13 kinds from a scene that causes it, word by word. The root is a Struct 0x40.

. cli/tests/scene.sh

# says LINE...: the scene is packed with these remarks and no others, and its pack is accepted.
says() {
    run 0 pack "$t/a.sheet" --schema "$t/a.schema"; empty out
    ending=s; [ $# != 1 ] || ending=
    { for line in "$@"; do echo "remark: $t/a.sheet: $line"; done; echo "$# remark$ending"; } >"$t/due"
    grep -v '^note: ' "$t/err" | sed '$s/^.*, //' >"$t/said"; same "$t/said" "$t/due"
    run 0 accept "$t/a.pso" --sheet "$t/a.sheet" --schema "$t/a.schema"; lacks out FAIL
}
it="structure 0x40, member 0x41"

# 1: the member does not fit; the detail is the size of the structure that it is in.
structure 0x40 4 "0x41 6 0 1 0" >"$t/a.schema"; holds "7 0x41 7"
says "$it: the member does not fit the structure of 4 bytes (row 1)"
structure 0x40 1 "0x41 6 0 0 0" >"$t/a.schema"; bare
says "$it: the member does not fit the structure of 1 byte"
{ structure 0x40 24 "0x41 0x0C 0 0 0x50"; structure 0x50 8 "0x51 6 0 8 0"; } >"$t/a.schema"
holds "21 0x41 0x50 2 1" "7 0x51 7"
says "structure 0x50, member 0x51: the member does not fit the structure of 8 bytes (row 2)"

# 2: the value is wrong; Bytes are so for every type. A member that is missing is never wrong.
wrong() {
    member "$1 $2 0 0"; holds "18 0x41"; says "$it: value is not $3 (row 1)"
    bare; says
}
wrong 0x00 0 "a boolean"
for type in 0x01 0x02 0x03 0x04 0x05 0x06 0x1E 0x20; do wrong $type 0 "an integer"; done
wrong 0x07 0 "a float"
wrong 0x08 0 "a vector2"
for type in 0x09 0x14; do wrong $type 0 "a vector3"; done
for type in 0x0A 0x15; do wrong $type 0 "a vector4"; done
for subtype in 0 1 2 3 7 8; do wrong 0x0B $subtype "a string or name"; done
wrong 0x0E 0 "an enum member"
wrong 0x0F 0 "a flag set"
wrong 0x0C 3 "a structure"
wrong 0x0D 0 "an array"
wrong 0x10 1 "a map"

# 3: the string's subtype.
for subtype in 4 5 6 9 255; do
    member "0x0B $subtype 0 0"; holds "15 0x41 0 0"; says "$it: string subtype $subtype is not supported (row 1)"
done

# 4: no definition of a structure: inline, by pointer (the reference is named, not the row's type), in a run of pointers.
member "0x0C 0 0 0x50"; holds "21 0x41 0x50 2 0"; says "$it: no definition of structure 0x50 (row 1)"
member "0x0C 3 0 0x50"; holds "21 0x41 0x60 2 0"; says "$it: no definition of structure 0x50 (row 1)"
array "0x0C 3 0 0x50"; holds "19 0x41 2 1" "21 0 0x60 3 0"; says "$it: no definition of structure 0x50 (row 2)"

# 5: the reference leads to no member that could be the ARRAYINFO; also where the value is missing.
member "0x0D 0 0 1"; holds "19 0x41 2 0"
says "$it: an array without ARRAYINFO in its structure's definition (row 1)"
bare; says "$it: an array without ARRAYINFO in its structure's definition"

# 6: the map's subtype.
for subtype in 0 2 255; do
    member "0x10 $subtype 0 0"; holds "20 0x41 2 0"; says "$it: map subtype $subtype is not supported (row 1)"
done

# 7: no definition of the pairs; a map without pairs needs none.
structure 0x40 24 "0x100 0x0C 0 0 0x50" "0x41 0x10 1 0 0" >"$t/a.schema"; holds "20 0x41 2 1" "7 0 1" "7 0 2"
says "$it: no definition of the map's pair structure 0x50 (row 1)"
holds "20 0x41 2 0"; says

# 8, 9: no definition of the elements, and an element that is no structure.
array "0x0C 0 0 0x50"; holds "19 0x41 2 2" "21 0 0x50 4 0" "7 0 7"
says "$it: no definition of the array's element structure 0x50 (row 1)"
structure 0x50 4 >>"$t/a.schema"; says "$it: an element of the array is not a structure (row 3)"
holds "19 0x41 2 2" "21 0 0x50 4 0" "0 0"; says

# 10, 11: the length and the subtype of an array's strings.
array "0x0B 0 0 0"; holds "19 0x41 2 1" "15 0 0 0"; says "$it: an array of strings of length 0 (row 1)"
for subtype in 4 5 6 9 255; do
    array "0x0B $subtype 0 0"; says "$it: string subtype $subtype is not supported in arrays (row 1)"
done

# 12, 13: the type of the elements and of the member.
for type in 0x0D 0x0F 0x10 0x11 0x1F 0x21 0xFF; do
    array "$type 0 0 0"; says "$it: element type $type is not supported in arrays (row 1)"
done
holds "7 0x41 7"
for type in 0x11 0x13 0x16 0x1D 0x1F 0x21 0xFF; do
    member "$type 0 0 0"; says "$it: member type $type is not supported (row 1)"
done
bare; says "$it: member type 0xFF is not supported"

# Several remarks stand in the order of the members, a structure's members before what follows it.
structure 0x40 24 "0x41 0x0C 0 0 0x50" "0x42 0x10 7 0 0" "0x43 0x11 0 0 0" >"$t/a.schema"
structure 0x50 4 "0x51 7 0 0 0" "0x52 6 0 4 0" >>"$t/a.schema"
sheet "21 0 0x40 1 2" "7 0x43 7" "21 0x41 0x50 3 1" "18 0x51" >"$t/a.sheet"
says "structure 0x50, member 0x51: value is not a float (row 3)" \
    "structure 0x50, member 0x52: the member does not fit the structure of 4 bytes" \
    "structure 0x40, member 0x42: map subtype 7 is not supported" \
    "structure 0x40, member 0x43: member type 0x11 is not supported (row 1)"

# Equal remarks stand once, with the rows that can be meant: not the U32, and five of many.
array "0x0C 0 0 0x50"; structure 0x50 4 "0x51 6 0 0 0" >>"$t/a.schema"
holds "19 0x41 2 3" "21 0 0x50 5 1" "21 0 0x50 6 1" "21 0 0x50 7 1" "18 0x51" "7 0x51 7" "18 0x51"
says "structure 0x50, member 0x51: value is not an integer (rows 5, 7)"
holds "19 0x41 2 6" "21 0 0x50 8 1" "21 0 0x50 9 1" "21 0 0x50 10 1" "21 0 0x50 11 1" "21 0 0x50 12 1" "21 0 0x50 13 1" \
    "18 0x51" "18 0x51" "18 0x51" "18 0x51" "18 0x51" "18 0x51"
says "structure 0x50, member 0x51: value is not an integer (rows 8, 9, 10, 11, 12, and more)"

# Rows are found along the definitions. Inline and in runs a row's own type does not count: not the Struct 0x50 is at
# fault here, which holds the text "7", but the one of type 0.
at50="structure 0x50, member 0x51"
array "0x0C 0 0 0x50"; structure 0x50 4 "0x51 6 0 0 0" >>"$t/a.schema"
holds "19 0x41 2 2" "21 0 0 4 1" "21 0 0x50 5 1" "18 0x51" "15 0x51 0 1"; printf 7 >>"$t/a.sheet"
says "$at50: value is not an integer (row 4)"
holds "19 0x41 2 2" "21 0 0x60 4 1" "21 0 0 5 1" "18 0x51" "18 0x51"
says "$at50: value is not an integer (rows 4, 5)"
# Inline, two deep, and through a member of another type.
{ structure 0x40 24 "0x41 0x0C 0 0 0x50"; structure 0x50 4 "0x51 6 0 0 0"; } >"$t/a.schema"
holds "21 0x41 0x60 2 1" "18 0x51"; says "$at50: value is not an integer (row 2)"
structure 0x40 24 "0x42 0x0C 0 0 0x60" "0x41 0x0C 0 4 0x50" >"$t/a.schema"
{ structure 0x60 4 "0x41 0x0C 0 0 0x50"; structure 0x50 4 "0x51 6 0 0 0"; } >>"$t/a.schema"
sheet "21 0 0x40 1 2" "21 0x41 0 3 1" "21 0x42 0x50 4 2" "7 0x51 7" "18 0x51" "21 0x41 0x40 6 1" "18 0x51" >"$t/a.sheet"
says "$at50: value is not an integer (row 6)"
# The first child of a name counts, for each member of that name.
structure 0x40 24 "0x41 0x0C 0 0 0x50" "0x41 0x0C 0 4 0x60" >"$t/a.schema"
for name in 0x50 0x60; do structure $name 4 "0x51 6 0 0 0"; done >>"$t/a.schema"
sheet "21 0 0x40 1 2" "21 0x41 0 3 2" "21 0x41 0 5 1" "18 0x51" "18 0x51" "18 0x51" >"$t/a.sheet"
says "$at50: value is not an integer (row 3)" "structure 0x60, member 0x51: value is not an integer (row 3)"
# Of two definitions of a name the last counts: the first has no member 0x51.
structure 0x40 24 "0x41 0x0C 0 0 0x50" >"$t/a.schema"
{ structure 0x50 4; structure 0x50 4 "0x51 6 0 0 0"; } >>"$t/a.schema"
holds "21 0x41 0 2 1" "18 0x51"; says "$at50: value is not an integer (row 2)"

# By pointer the own type counts where it has a definition, else the reference; in runs of pointers as well.
member "0x0C 3 0 0x50"; for name in 0x50 0x60; do structure $name 4 "0x51 6 0 0 0"; done >>"$t/a.schema"
holds "21 0x41 0x60 2 1" "18 0x51"; says "structure 0x60, member 0x51: value is not an integer (row 2)"
holds "21 0x41 0x70 2 1" "18 0x51"; says "$at50: value is not an integer (row 2)"
array "0x0C 3 0 0x50"; for name in 0x50 0x60; do structure $name 4 "0x51 6 0 0 0"; done >>"$t/a.schema"
holds "19 0x41 2 4" "21 0 0x60 6 1" "0 0" "21 0 0x70 7 1" "21 0 0x50 8 1" "18 0x51" "18 0x51" "18 0x51"
says "structure 0x60, member 0x51: value is not an integer (row 6)" "$at50: value is not an integer (rows 7, 8)"
# A structure that points to itself.
structure 0x40 12 "0x41 0x0C 3 0 0x40" "0x42 6 0 8 0" >"$t/a.schema"
sheet "21 0 0x40 1 2" "18 0x42" "21 0x41 0x40 3 2" "21 0x41 9 5 1" "7 0x42 7" "18 0x42" >"$t/a.sheet"
says "structure 0x40, member 0x42: value is not an integer (rows 1, 5)"
# Nothing is packed behind the length of an embedded run: here one element.
structure 0x40 24 "0x100 0x0C 0 0 0x50" "0x41 0x0D 1 0 0x10000" >"$t/a.schema"
structure 0x50 4 "0x51 6 0 0 0" >>"$t/a.schema"
holds "19 0x41 2 2" "21 0 0x50 4 1" "21 0 0x50 5 1" "18 0x51" "18 0x51"; says "$at50: value is not an integer (row 4)"

# Keys and values have the names of the pair's first two members; a Struct in a pair leads on.
pairs() {
    structure 0x40 24 "0x100 0x0C 0 0 0x50" "0x41 0x10 1 0 0" >"$t/a.schema"
    structure 0x50 12 "$@" >>"$t/a.schema"
}
pairs "0x51 6 0 0 0" "0x100 6 0 0 0" "0x52 7 0 4 0"
holds "20 0x41 2 2" "7 0 1" "18 0" "18 0" "7 0 2"
says "structure 0x50, member 0x52: value is not a float (row 3)" "$at50: value is not an integer (row 4)"
pairs "0x51 6 0 0 0" "0x52 0x0C 0 4 0x60"; structure 0x60 4 "0x61 7 0 0 0" >>"$t/a.schema"
holds "20 0x41 2 1" "7 0 1" "21 0 0x50 4 1" "18 0x61"
says "structure 0x60, member 0x61: value is not a float (row 4)"
pairs "0x51 6 0 0 0" "0x51 7 0 4 0"; holds "20 0x41 2 1" "18 0" "7 0 1"
says "$at50: value is not an integer (row 2)" "$at50: value is not a float (row 2)"

# Rows that cannot be meant are not named.
# elements DEFINITION COUNT ROW...: a run of so many Structs, each with a member 0x51; these are the first rows.
elements() {
    array "0x0C 0 0 0x50"; structure 0x50 24 "0x51 $1" "0x100 0x0B 0 0 0" >>"$t/a.schema"
    count=$2; shift 2
    {
        words $((2 + count + $#)); rows "21 0 0x40 1 1" "19 0x41 2 $count"
        k=0; while [ $k -lt "$count" ]; do rows "21 0 0x50 $((2 + count + k)) 1"; k=$((k + 1)); done
        rows "$@"
    } >"$t/a.sheet"
}
elements "6 0 0 0" 6 "15 0x51 0 2" "15 0x51 2 4" "15 0x51 6 1" "15 0x51 7 1" "14 0x51 5" "12 0x51"
printf '0xTrUe x' >>"$t/a.sheet"; says "$at50: value is not an integer (rows 8, 11, 13)"
elements "7 0 0 0" 3 "10 0x51 1" "15 0x51 0 1" "17 0x51 1"
printf x >>"$t/a.sheet"; says "$at50: value is not a float (row 6)"
elements "9 0 0 0" 3 "11 0x51" "19 0x51 8 3" "19 0x51 11 2" "7 0 1" "10 0 1" "2 0 1" "7 0 1" "7 0 1"
says "$at50: value is not a vector3 (row 7)"
elements "0x0B 1 0 0" 4 "14 0x51 0" "14 0x51 1" "7 0x51 1" "15 0x51 0 0"
says "$at50: value is not a string or name (rows 7, 8)"
elements "0x0B 7 0 0" 4 "14 0x51 1" "7 0x51 1" "3 0x51 1" "15 0x51 0 0"
says "$at50: value is not a string or name (row 8)"
# An enum's texts are numbers or names of its entries, here "a" by its hash and "hash_1F"; flags are lists of such.
enum() { printf PSCH; words 40 1 "$1" 20 $((1 << 24 | 2)) 0xCA2E9442 1 0x1F 2; }
elements "0x0E 0 0 0x70" 5 "16 0x51 1" "15 0x51 0 2" "15 0x51 2 1" "15 0x51 3 1" "15 0x51 4 7"
printf '%s' -1abhash_1F >>"$t/a.sheet"
says "$at50: value is not an enum member (rows 9, 10, 11)"
enum 0x70 >>"$t/a.schema"; says "$at50: value is not an enum member (row 10)"
elements "0x0F 0 0 1" 5 "19 0x51 12 2" "19 0x51 14 1" "17 0x51 1" "15 0x51 0 4" "15 0x51 4 3" "7 0 1" "15 0 7 0" "18 0"
enum 0 >>"$t/a.schema"; printf '%s' ' a,aa,b' >>"$t/a.sheet"; says "$at50: value is not a flag set (rows 8, 11)"
elements "0x0C 3 0 0x40" 3 "15 0x51 0 0" "15 0x51 0 1" "0 0x51"
printf ' ' >>"$t/a.sheet"; says "$at50: value is not a structure (row 6)"
elements "0x0D 0 0 1" 3 "15 0x51 0 0" "15 0x51 0 1" "20 0x51 8 0"
printf ' ' >>"$t/a.sheet"; says "$at50: value is not an array (row 7)"
# 4, 7, 8 to 12: a missing definition is of no account where there is nothing to pack, or where the own type has one.
elements "0x0C 3 0 0x60" 3 "21 0x51 0x40 8 0" "21 0x51 0x60 8 0" "0 0x51"
says "$at50: no definition of structure 0x60 (row 6)"
elements "0x10 1 0 1" 3 "20 0x51 8 0" "20 0x51 8 1" "0 0x51" "0 0" "0 0"
says "$at50: no definition of the map's pair structure 0x0 (row 6)"
elements "0x0D 0 0 1" 3 "19 0x51 8 0" "19 0x51 8 1" "0 0x51" "0 0"
says "$at50: an array of strings of length 0 (row 6)"
elements "0x0D 1 0 1" 3 "19 0x51 8 0" "19 0x51 8 1" "0 0x51" "0 0"
says "$at50: an array of strings of length 0 (rows 5, 6, 7)"
