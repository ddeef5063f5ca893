# Decimals typed as text: what they give, what is lost of them, and which texts are refused with 11.
. cli/tests/scene.sh
it="structure 0x40, member 0x41"

# typed TEXT: the member's value is this text. among TEXT ROW...: its value are rows, with this text behind them.
typed() { holds "15 0x41 0 ${#1}"; printf '%s' "$1" >>"$t/a.sheet"; }
among() { text=$1; shift; holds "$@"; printf '%s' "$text" >>"$t/a.sheet"; }
# made HEX NOTES: the scene is packed without a remark; the structure begins with these bytes; so many notes are told.
made() {
    run 0 pack "$t/a.sheet" --schema "$t/a.schema"; lacks err "remark: "; has err " 0 remarks"
    got=$(od -An -tx1 -j16 -N$((${#1} / 2)) "$t/a.pso" | tr -d ' \n')
    ok "$got, $1 is due" [ "$got" = "$1" ]
    ok "$2 notes" [ "$(grep -c '^note: ' "$t/err")" = "$2" ]
}
gives() { typed "$1"; made "$2" "${3:-0}"; }
# unfit WORDS TEXT...: remark 2 for each text. refused PLACE TEXT: 11, and nothing is written.
unfit() { words=$1; shift; for text in "$@"; do typed "$text"; remarked "$words"; done; }
remarked() { run 0 pack "$t/a.sheet" --schema "$t/a.schema"; has err "remark: $t/a.sheet: $it: value is not $1 (row 1)"; }
stops() {
    run 1 pack "$t/a.sheet" --schema "$t/a.schema" -o "$t/none.pso"; empty out; gone "$t/none.pso"
    has err "a.sheet: refusal 11: a floating-point text other than a decimal of one to nine digits ($1; write it with nine digits at most and no exponent, or give a number)"
}
refused() { for text in "$@"; do typed "$text"; stops "row 1, $it: \"$text\""; done; }

# A float: the nearest one, ties to even; blanks around it do not count. A text has no remark and no note.
member "7 0 0 0"
gives 12.5 41480000; cp "$t/a.pso" "$t/text.pso"
run 0 accept "$t/text.pso" --sheet "$t/a.sheet" --schema "$t/a.schema"; has out "text.pso: accepted"
holds "10 0x41 0x41480000"; run 0 pack "$t/a.sheet" --schema "$t/a.schema"; same "$t/a.pso" "$t/text.pso"
run 0 accept "$t/text.pso" --sheet "$t/a.sheet" --schema "$t/a.schema"; has out "text.pso: accepted"
gives "$(printf ' 12.5\t')" 41480000; gives -12.50 c1480000; gives 12.5000000 41480000
gives 5 40a00000; gives 5. 40a00000; gives +.5 3f000000; gives 0.1 3dcccccd; gives .000000001 3089705f
gives -0 80000000; gives -.0 80000000; gives 000000000 00000000
gives 8388608.5 4b000000; gives 8388609.5 4b000002; gives 16777217 4b800000; gives 123456789 4ceb79a3
unfit "a float" "" " " . + 1.2.3 "1 .5" 1,5 0x10 true --1 12.5f
refused 1e5 12.5e0 1234567890 000000000.5 1.000000000 nan -inf Infinity
# An item of an Array, and a value of a map.
array "7 0 0 0"; among 12.51e5 "19 0x41 2 2" "15 0 0 4" "15 0 4 3"; stops "row 3, $it: \"1e5\""
among 12.5.25 "19 0x41 2 2" "15 0 0 4" "15 0 4 3"; run 0 pack "$t/a.sheet" --schema "$t/a.schema"; has err " 0 remarks"
among 12.5x "19 0x41 2 2" "15 0 0 4" "15 0 4 1"; run 0 pack "$t/a.sheet" --schema "$t/a.schema"
has err "note: $t/a.sheet: row 1, $it: row 3 is no such element, so the array is left out"
{ structure 0x40 24 "0x100 0x0C 0 0 0x50" "0x41 0x10 1 0 0"; structure 0x50 8 "0x51 6 0 0 0" "0x52 7 0 4 0"; } >"$t/a.schema"
among 7.01e5 "20 0x41 2 1" "15 0 0 3" "15 0 3 3"; stops 'row 3, structure 0x50, member 0x52: "1e5"'

# An integer takes it without its fraction, which a note tells.
member "5 0 0 0"
gives 12.5 0000000c 1; has err "note: $t/a.sheet: row 1, $it: the number's fraction is dropped"
gives -12.9 fffffff4 1; gives -0.9 00000000 1; gives .5 00000000 1; gives 5. 00000005; gives 7.0 00000007; gives -0 00000000
gives 1234567890 499602d2; gives 0x1F 0000001f; gives true 00000001
unfit "an integer" . 0x1.5 1.5.2 1,5
refused 1234567890.5 000000000.5 99999999999999999999 1e5 nan
member "2 0 0 0"; gives 257.5 01 2; has err "row 1, $it: the number is cut to the member's width"; gives -1.9 ff 1
member "0x1E 0 0 0"; gives 1.5 0001 1
member "0x20 0 0 0"; gives -2.5 fffffffffffffffe 1
member "0 0 0 0"; gives 7.7 07 1

# So do an enum and flags, before any name is looked for: an entry 1.5 has 77, red has 9.
enum() { printf PSCH; words 40 1 "$1" 20 $((1 << 24 | 2)) 0x0C8FBD9A 77 0x9872324C 9; }
{ structure 0x40 24 "0x41 0x0E 0 0 0x70"; enum 0x70; } >"$t/a.schema"
gives 1.5 00000001 1; gives red 00000009; unfit "an enum member" 1.5.2 blue; refused 1e1 nan
{ structure 0x40 24 "0x100 6 0 0 0x70" "0x41 0x0F 0 0 0"; enum 0x70; } >"$t/a.schema"
gives 6.5 00000006 1; gives 1.5,red 00002200; refused 1e1
among 1.54.5 "19 0x41 2 2" "15 0 0 3" "15 0 3 3"; made 00000005 2
among 1.5inf "19 0x41 2 2" "15 0 0 3" "15 0 3 3"; stops "row 3, $it: \"inf\""

# A vector: all parts of the text are read, the first that is no decimal decides, then they are counted.
member "8 0 0 0"
gives 1.5,2.5 3fc0000040200000; gives " 1.5 , 2.5," 3fc0000040200000; gives "-0 .5" 800000003f000000
gives 1,2,3,4,5,6 3f80000040000000 1; has err "there are more numbers than the vector holds; the last are left out"
unfit "a vector2" 1.5 "" " , " 1,x 1,2,x x,nan 1,x,1e5 1,2,3,4,5,x
refused nan " 1e5 "
typed 1,1e5,x; stops "row 1, $it: part 2 of its text is \"1e5\""
typed nan,x; stops "row 1, $it: part 1 of its text is \"nan\""
typed 1,2,nan; stops "row 1, $it: part 3 of its text is \"nan\""
typed ",nan"; stops "row 1, $it: part 1 of its text is \"nan\""
typed "1 2 3 4 5 1234567890"; stops "row 1, $it: part 6 of its text is \"1234567890\""
among 2.5.25 "19 0x41 2 2" "15 0 0 3" "15 0 3 3"; made 402000003e800000 0
among 2.5nan "19 0x41 2 2" "15 0 0 3" "15 0 3 3"; stops "row 3, $it: \"nan\""
among xnan "19 0x41 2 2" "15 0 0 1" "15 0 1 3"; remarked "a vector2"
array "8 0 0 0"; among "1 23 inf" "19 0x41 2 2" "15 0 0 3" "15 0 3 5"; stops "row 3, $it: part 2 of its text is \"inf\""

# In JSON, of several sheets, and for accept.
member "7 0 0 0"; typed 1e5; cp "$t/a.sheet" "$t/b.sheet"; typed 12.5
run 1 pack "$t/a.sheet" "$t/b.sheet" --schema "$t/a.schema" --json; has out '"code": 0'; has out '"code": 11'
run 1 accept "$t/text.pso" --sheet "$t/b.sheet" --schema "$t/a.schema"
has out "is refused: refusal 11: a floating-point text other than a decimal of one to nine digits (row 1, $it: \"1e5\")"
# The hall's second lamp has a power.
cp "$e/hall/hall.sheet" "$t/hall.sheet"; poke "$t/hall.sheet" "$(place "$e/hall/hall.sheet" bright)" 061 062 056 065 060 060
run 0 pack "$t/hall.sheet" --schema "$e/hall/hall.schema"; has err "hall.pso: 1,244 bytes, 9 blocks, 9 definitions, 0 remarks"
cmp -l "$t/hall.pso" "$e/hall/hall.pso" | awk '{ print $2, $3 }' >"$t/bytes" || true
printf '101 0\n110 0\n' >"$t/due"; same "$t/bytes" "$t/due"
run 0 dump "$t/hall.sheet"; has out 'Str "12.500"'
