# Reading: what is shown, and each refusal with its place.
run 0 read "$e/case1/case1.pso"; empty err
sed -n '1s/.*: /FILE: /p;2,$p' "$t/out" >"$t/shown"; same "$t/shown" "cli/tests/case1.read"
run 0 read "$e/case1/case1.pso" --json; empty err
sed '/"file"/d' "$t/out" >"$t/shown"; same "$t/shown" "cli/tests/case1.json"
run 0 read "$e/hall/hall.pso"
has out "root: block 9 of 9, at its start"; has out "  9  name 0x2FC89E62, place 228, 200 bytes"
has out "  structure 0x2FC89E62: 200 bytes, unknown byte 0, 23 members"
has out "    0xF977AF0D: type 0x10 map, subtype 1, offset 176, reference 0x15"
has out "  enum 0x9C7067EA: 3 entries"; has out "    0x60B8CF37 = 2"
"$S" read - --json <"$e/hall/hall.pso" >"$t/out" 2>"$t/err"; has out '"file": "standard input"'
has out '{"number": 9, "name": 801676898, "place": 228, "length": 200}'
if command -v python3 >/dev/null 2>&1; then ok "the JSON is sound" python3 -m json.tool "$t/out"; fi

# A second definition of a name is shown as such.
cat "$e/case1/case1.pso" "$e/case1/case1.schema" >"$t/two"
run 0 read "$t/two"; has out "1 member (an earlier one has this name)"
{ cat "$e/case1/case1.pso"; printf 'abc'; } >"$t/tail"
run 0 read "$t/tail"; has out "3 bytes behind the last section"

# Block lists one behind the other, also with the count at 16 and the rows at 24.
block() { printf '\0\0\0%b\0\0\0\20\0\0\0\0\0\0\0\4' "$1"; }
{
    printf 'PSIN\0\0\0\24\0\0\0\0\0\0\0\0\0\0\0\7'
    printf 'PMAP\0\0\0\40\0\0\0\1\0\1pp'; block '\0121'
    printf 'PMAP\0\0\0\50\0\0\0\1\0\0pp\0\1\0\0\0\0\0\0'; block '\0122'
    printf 'PMAP\0\0\0\70\0\0\0\4\200\0pp\0\2\0\0\0\0\0\0'; block '\0123'; block '\0124'
} >"$t/maps"
run 0 read "$t/maps"; ok "the root is the last" grep -qx "root: block 4 of 4" "$t/out"; lacks out "  5  name"
for k in 1 2 3 4; do has out "  $k  name 0x5$k, place 16, 4 bytes"; done

# Where the root starts is taken from its structure's size, as far as the file tells it: the root ends its block.
root() {
    run 0 read "$t/hurt"; ok "root: $1" grep -qx "root: $1" "$t/out"
    run 0 read "$t/hurt" --json; has out "  \"root_start\": $2,"
}
hurt() { cp "$1" "$t/hurt"; shift; poke "$t/hurt" "$@"; }
case1=$e/case1/case1.pso
hurt "$case1" 79 2; root "block 1 of 1, at 0x2 of it" 2
hurt "$case1" 79 0; root "block 1 of 1, at 0x4 of it" 4
hurt "$case1" 79 5; root "block 1 of 1" null
hurt "$case1" 67 102; root "block 1 of 1" null
hurt "$case1" 31 0; root "block 0 of 1" null
hurt "$e/hall/hall.pso" 439 12; root "block 10 of 9" null
hurt "$e/hall/hall.pso" 439 3; root "block 3 of 9, at 0x14 of it" 20
"$tools/tamper" "$case1" "$t/hurt" remove 0x40; root "block 1 of 1" null
# A block that runs past the data tells nothing.
hurt "$case1" 43 21; root "block 1 of 1" null
hurt "$case1" 43 17; poke "$t/hurt" 51 5; root "block 1 of 1, at 0x1 of it" 1
# Of several structures of its name the last counts, as in packing.
cat "$case1" "$e/case1/case1.schema" >"$t/hurt"; poke "$t/hurt" $((96 + 27)) 1; root "block 1 of 1, at 0x3 of it" 3

# A schema file, alone and among other sections, has no root and no blocks.
run 0 read "$e/hall/hall.schema"; empty err
has out "schema file: no root, no data, no blocks"; lacks out "root:"; lacks out "place"
has out "  PSCH  at 0, 684 bytes"; has out "  structure 0x2FC89E62: 200 bytes, unknown byte 0, 23 members"
run 0 read "$e/case1/case1.schema" --json; sed '/"file"/d' "$t/out" >"$t/shown"; same "$t/shown" "cli/tests/case1.schema.json"
{ printf 'STRF\0\0\0\10'; cat "$e/case1/case1.schema" "$e/case1/case1.pso"; } >"$t/odd"
run 0 read "$t/odd"; has out "schema file: no root"; has out "  STRF  at 0, 8 bytes"; lacks out "  1  name"
run 0 read "$t/odd" --json; has out '"root": null'; has out '"blocks": []'; lacks out '"number": 1'

# Names that share a definition: it is shown once.
{ printf 'PSCH\0\0\0\64\0\0\0\2\0\0\0\100\0\0\0\34\0\0\0\101\0\0\0\34'; tail -c 24 "$e/case1/case1.schema"; } >"$t/shared"
run 0 read "$t/shared"; has out "  structure 0x40: 4 bytes, unknown byte 0, 1 member"; has out "  structure 0x41: as structure 0x40"
run 0 read "$t/shared" --json; has out '{"name": 65, "at": 28, "unknown": 0, "size": 4, "as": 64}'

# refuse NUMBER TEXT: reading $t/hurt is refused.
refuse() { run 1 read "$t/hurt"; has err "hurt: refusal $1:"; has err "$2"; empty out; run 1 read --json "$t/hurt"; empty out; }
: >"$t/hurt"; refuse 15 "the file is empty"
printf 'PSI' >"$t/hurt"; refuse 15 "the file starts with [50, 53, 49]"
printf 'STRF\0\0\0\10' >"$t/hurt"; refuse 15 "the file starts with [53, 54, 52, 46]"
cp "$e/hall/hall.sheet" "$t/hurt"; refuse 15 "(this looks like a sheet, a PSO file is due)"
head -c 6 "$e/case1/case1.pso" >"$t/hurt"; refuse 17 "there is no data section"
head -c 20 "$e/case1/case1.pso" >"$t/hurt"; refuse 18 "there is no PMAP"
head -c 95 "$e/case1/case1.pso" >"$t/hurt"; refuse 4 "section PSCH at byte 52: length 44, 43 bytes to the end"
cp "$e/case1/case1.pso" "$t/hurt"; poke "$t/hurt" 33 2; refuse 16 "PMAP at byte 20: 32 bytes, 48 are due"
cp "$e/case1/case1.pso" "$t/hurt"; poke "$t/hurt" 63 7; refuse 5 "an index of 7 entries in 44 bytes"
cp "$e/case1/case1.pso" "$t/hurt"; poke "$t/hurt" 72 5; refuse 6 "definition 0x40 at 20: top byte 5"

# A schema file that packing refuses.
refuse() { run 1 read "$t/hurt"; has err "hurt: as a schema file: refusal $1:"; has err "$2"; empty out; run 1 read --json "$t/hurt"; empty out; }
head -c 40 "$e/case1/case1.schema" >"$t/hurt"; refuse 4 "section PSCH at byte 0: length 44, 40 bytes to the end"
cp "$e/case1/case1.schema" "$t/hurt"; poke "$t/hurt" 11 7; refuse 5 "an index of 7 entries in 44 bytes"
cp "$e/case1/case1.schema" "$t/hurt"; poke "$t/hurt" 20 2; refuse 6 "definition 0x40 at 20: top byte 2"
