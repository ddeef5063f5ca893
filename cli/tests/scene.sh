# Small schema files and sheets, written number by number. The root is a Struct 0x40.

# words NUMBER...: each as four bytes.
words() {
    for w in "$@"; do
        for bits in 24 16 8 0; do
            b=$((w >> bits & 255))
            # shellcheck disable=SC2059
            printf "\\$((b >> 6))$((b >> 3 & 7))$((b & 7))"
        done
    done
}

# structure NAME SIZE MEMBER...: a section with one definition; a member is "name type subtype offset reference".
structure() {
    name=$1 size=$2; shift 2
    printf PSCH; words $((32 + 12 * $#)) 1 "$name" 20 $# "$size" 0
    # shellcheck disable=SC2086
    for m in "$@"; do set -- $m; words "$1" $(($2 << 24 | $3 << 16 | $4)) "$5"; done
}

# sheet ROW...: a row is "kind name a b c d", what is left out is zero.
# Kinds: 0 Null, 2 I8, 7 U32, 10 F32, 11 Vec2, 12 Vec3, 14 Hash, 15 Str, 16 Enum, 17 Flags, 18 Bytes, 19 Array, 20 Map,
# 21 Struct.
sheet() { words $#; rows "$@"; }
rows() {
    # shellcheck disable=SC2086
    for r in "$@"; do set -- $r; words $(($1 << 24)) "$2" "${3:-0}" "${4:-0}" "${5:-0}" "${6:-0}"; done
}

# The schema file $t/a.schema and the sheet $t/a.sheet:
# member DEFINITION: structure 0x40 has 24 bytes and the member 0x41.
member() { structure 0x40 24 "0x41 $1" >"$t/a.schema"; }
# array ELEMENT: its member 0x41 is an array by pointer of such elements.
array() { structure 0x40 24 "0x100 $1" "0x41 0x0D 0 0 0" >"$t/a.schema"; }
# holds ROW...: the root holds the member of row 1, further rows are behind it.
holds() { sheet "21 0 0x40 1 1" "$@" >"$t/a.sheet"; }
# bare: the root holds nothing.
bare() { sheet "21 0 0x40 1 0" >"$t/a.sheet"; }
