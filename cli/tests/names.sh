# Names beside their hashes, in every command; without the words all is as it was.
names="--names $e/hall/hall.names"
run 0 dump "$e/hall/hall.sheet" $names; has out "44        0x9F5ED20C (power): Str \"bright\""; has out "22      Struct 0xC8FDDC97 (Lamp)"
sed 's/\(0x[0-9A-F]*\) ([A-Za-z]*)/\1/' "$t/out" | sed 's/\(0x[0-9A-F]*\) ([A-Za-z]*)/\1/' >"$t/bare"; same "$t/bare" "cli/tests/hall.dump"
run 0 read "$e/hall/hall.pso"; cp "$t/out" "$t/plain"
run 0 read "$e/hall/hall.pso" $names
has out "  3  name 0xC8FDDC97 (Lamp), place 80, 40 bytes"; has out "  6  name 0xC, place 160, 40 bytes"
has out "  structure 0xC8FDDC97 (Lamp): 20 bytes"; has out "    0x9F5ED20C (power): type 0x07 f32"
has out "offset 0, reference 0xC8FDDC97 (Lamp)"; has out "    0x60B8CF37 (STATION) = 2"
sed 's/\(0x[0-9A-F]*\) ([A-Za-z]*)/\1/g' "$t/out" >"$t/bare"; same "$t/bare" "$t/plain"
run 0 read "$e/hall/hall.pso" $names --json; has out '"name": 3372080279, "word": "Lamp", "at": '
has out '{"name": 2673791500, "word": "power", "type": 7'; has out '{"name": 1622724407, "word": "STATION", "value": 2}'
has out '{"number": 3, "name": 3372080279, "word": "Lamp", "place": 80, "length": 40}'
run 0 read "$e/hall/hall.pso" --json; lacks out '"word"'

# lamp TEXT: the hall's remark reads so with the names of $t/names.
lamp() {
    run 0 pack "$e/hall/hall.sheet" --schema "$e/hall/hall.schema" -o "$t/a.pso" --names "$t/names"
    has err "remark: $e/hall/hall.sheet: $1: value is not a float (row 44)"; same "$t/a.pso" "$e/hall/hall.pso"
}
s=0xC8FDDC97 m=0x9F5ED20C
cp "$e/hall/hall.names" "$t/names"; lamp "structure $s, member $m (Lamp.power)"
printf 'Lamp' >"$t/names"; lamp "structure $s (Lamp), member $m"
printf '\n\n   \npower\n' >"$t/names"; lamp "structure $s, member $m (power)"
printf '\357\273\277 Lamp\t\r\n\r\n\tpower  \r\n' >"$t/names"; lamp "structure $s, member $m (Lamp.power)"
# A word is hashed as it is, also one that reads as a hash; what is not known is as before.
printf 'lamp\nPOWER\n0xC8FDDC97\nhash_9F5ED20C\nLamp power\n' >"$t/names"; lamp "structure $s, member $m"
: >"$t/names"; lamp "structure $s, member $m"
run 1 pack "$e/hall/hall.sheet" --schema "$e/case1/case1.schema" -o "$t/b.pso" $names
has err "refusal 7: the root type has no definition (type 0x2FC89E62 (Hall); $e/case1/case1.schema has 1 definition)"
run 0 accept "$e/hall/hall.pso" --sheet "$e/hall/hall.sheet" $names
"$S" dump "$e/hall/hall.sheet" --names - <"$e/hall/hall.names" >"$t/out" 2>"$t/err"; has out "(Lamp)"

# Any bytes are words; what a screen cannot show is replaced. A line that is too long is none.
printf 'a\033[31m\nb\377\n' >"$t/names"; run 0 dump "$e/case1/case1.sheet" --names "$t/names"; has out "1    0x41: U32 7"
{ printf 'Lamp\n'; head -c 256 /dev/zero | tr '\0' x; printf '\n'; } >"$t/names"
for words in "dump $e/case1/case1.sheet" "read $e/case1/case1.pso" "pack $e/case1/case1.sheet --schema $e/case1/case1.schema"; do
    run 1 $words --names "$t/names"; has err "names: row 2: longer than 255 bytes, no name is"; empty out
done
run 2 accept "$e/case1/case1.pso" --sheet "$e/case1/case1.sheet" --names "$t/names"; has err "names: row 2: longer"
run 1 dump "$e/case1/case1.sheet" --names "$t/missing"; has err "missing: No such file"
