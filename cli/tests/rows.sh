# Row numbers: a first child or a count whose last 16 bits alone are right is refused; the last row is number 16,383.
. cli/tests/scene.sh
schema=$e/case1/case1.schema

# refused TEXT: $t/a.sheet is, for what the text says of its first row.
refused() {
    run 1 pack "$t/a.sheet" --schema "$schema" -o "$t/a.pso"; empty out; gone "$t/a.pso"
    has err "a.sheet: refusal 1: the sheet breaks its layout (row 0: $1)"
}
sheet "21 0 0x40 1 1" "7 0x41 7" >"$t/a.sheet"; same "$t/a.sheet" "$e/case1/case1.sheet"
sheet "21 0 0x40 0x10001 1" "7 0x41 7" >"$t/a.sheet"; refused "the first child is 65537, 1 is due"
sheet "21 0 0x40 1 0x10001" "7 0x41 7" >"$t/a.sheet"; refused "children up to row 65537, there are 2 rows"
sheet "19 0 0x10001" >"$t/a.sheet"; refused "the first child is 65537, 1 is due"
# Twice as many pairs are 2 in 32 bits, or in 16.
for pairs in 0x80000001 0x10001 0x8001; do
    sheet "20 0 1 $pairs" "0 0" "0 0" >"$t/a.sheet"; refused "children up to row $((2 * pairs)), there are 3 rows"
done
sheet "20 0 1 1" "0 0" "0 0" >"$t/a.sheet"
run 1 pack "$t/a.sheet" --schema "$schema"; has err "a.sheet: refusal 3:"

# full COUNT: 16,384 rows, a Struct that claims so many children, and Nulls.
full() { words 16384; rows "21 0 0x40 1 $1"; head -c $((24 * 16383)) /dev/zero; }
full 16383 >"$t/a.sheet"; run 0 pack "$t/a.sheet" --schema "$schema" -o "$t/a.pso"; has err "a.pso: 96 bytes"
run 0 accept "$t/a.pso" --sheet "$t/a.sheet" --schema "$schema"; has out "a.pso: accepted"
full 16384 >"$t/a.sheet"; rm -f "$t/a.pso"; refused "children up to row 16384, there are 16384 rows"
