# A sheet as a tree.
run 0 dump "$e/hall/hall.sheet"; empty err; same "$t/out" "cli/tests/hall.dump"
run 0 dump "$e/case1/case1.sheet"; has out "1    0x41: U32 7"
"$S" dump - <"$e/hall/hall.sheet" >"$t/out" 2>"$t/err"; same "$t/out" "cli/tests/hall.dump"
head -c 51 "$e/case1/case1.sheet" >"$t/short"
run 1 dump "$t/short"; has err "short: refusal 1: the sheet breaks its layout (2 rows need 52 bytes, there are 51)"; empty out
# What cannot be packed is shown all the same.
{ printf '\0\0\0\1\12\0\0\0\0\0\0\0\177\300\0\0'; head -c 12 /dev/zero; } >"$t/nan"
run 1 dump "$t/nan"; has out "0  F32 NaN (0x7FC00000)"; has err "refusal 3: the root is no Struct (row 0 is F32)"
cp "$e/hall/hall.sheet" "$t/high"; poke "$t/high" "$(place "$t/high" bright)" 377
run 1 dump "$t/high"; has out 'Str "\xffright"'; has err "refusal 2"
run 1 dump "$e/hall/hall.pso"; has err "hall.pso: refusal 1: the sheet breaks its layout (this is a PSO file, a sheet is due)"; empty out
