# Files made to be slow or long: every command ends within its memory, its time and its output.
"$tools/hostile" "$t"
memory=98304 # KB: 64 MB and a small multiple of the input
seconds=20 # of the processor, for what takes less than one
times=40 # the output is at most so many times as long as the input

# bounded STATUS SHAPE WORDS...: the command ends within its bounds. $t/out has the front of its output.
bounded() {
    due=$1 shape=$2; shift 2
    : >"$t/status"; most=$((times * $(wc -c <"$t/$shape")))
    (
        ulimit -v $memory; ulimit -t $seconds
        got=0; "$S" "$@" 2>"$t/err" || got=$?
        echo $got >"$t/status"
    ) | head -c $((most + 1)) >"$t/all"
    ok "$shape, $*: status $(cat "$t/status")" [ "$(cat "$t/status")" = "$due" ]
    length=$(wc -c <"$t/all")
    ok "$shape, $*: $length bytes of output, at most $most" [ "$length" -gt 0 -a "$length" -le "$most" ]
    head -c 4096 "$t/all" >"$t/out"
}

for shape in maps sections shared staggered shared.schema staggered.schema enums.schema index.schema; do
    bounded 0 $shape read "$t/$shape" --json
    bounded 0 $shape read "$t/$shape"
    # all TEXT COUNT: so many lines have the text.
    all() { ok "$shape: '$1' is not in $2 lines" [ "$(grep -cF -- "$1" "$t/all")" = "$2" ]; }
    case $shape in
        maps) all "  name 0x40, place 16, 0 bytes" 100001 ;;
        sections) all "  STRF  at " 400000 ;;
        shared*) all "    0x41: type 0x06 u32" 65535; all ": as structure 0x1000" 1999 ;;
        # The second structure is cut, the others have no room.
        staggered*) all "65,535 members left out: definitions lie over one another" 1998; all " members left out" 1999 ;;
        enums*) all "65,535 entries left out: definitions lie over one another" 1998; all " entries left out" 1999 ;;
        index*) all "  structure 0x40: as structure 0x40 (an earlier one has this name)" 399999 ;;
    esac
done

# Of many faults the first is told, and how many more there are.
bounded 1 faults accept "$t/faults" --sheet "$t/many.sheet"
has out "FAIL  pointers followed: row 2, structure 0x40, member 0x41: byte 64016 of the file (block 2, start 0x0) says block 4095, start 0xFFFFF; block 1, start 0x0 is due; and 15,999 more"
# 2,000 members over a run of 65,535 pointers that lead nowhere; the sheet has two elements.
bounded 1 nowhere accept "$t/nowhere" --sheet "$t/few.sheet"; has out "FAIL  pointers followed: row 1, structure 0x40, member 0x41: "
# One run under 65,000 members is laid until the charge passes its cap.
bounded 1 members accept "$t/members" --sheet "$t/many.sheet"; has out "refusal 9: the charge would pass its cap (row 1"
# 8 comes before 9 where both are met.
bounded 1 deep accept "$t/deep" --sheet "$t/deep.sheet"; has out "refusal 8: a structure would start at depth 33, inline in 32 others (row 32"
# What costs no charge is counted in steps, and remarks by their number.
bounded 2 flags accept "$t/flags" --sheet "$t/numbers.sheet"
has out "????  rebuild from the pack's own schema: the scene with the definitions of the pack takes too many steps to be laid"
has out "flags: could not be checked, 3 of 5 checks could not be made"
bounded 2 remarks accept "$t/remarks" --sheet "$t/types.sheet"; has out "has more than 65,536 different remarks"
bounded 2 staggered accept "$t/staggered" --sheet "$t/many.sheet"
mkdir "$t/some"; "$tools/hostile" "$t/some" 20
bounded 2 some/remarks accept "$t/some/remarks" --sheet "$t/some/types.sheet"; has out "has more than 65,536 different remarks"
bounded 2 staggered accept "$t/staggered" --sheet "$t/first.sheet"; has out "takes too many steps to be laid"
# So is what the library would look for from the front.
for shape in children:children lacking:one entries:entries noted:one infos:many used:many rounds:rounds parts:parts; do
    bounded 2 "${shape%:*}" accept "$t/${shape%:*}" --sheet "$t/${shape#*:}.sheet"; has out "takes too many steps to be laid"
done
bounded 1 behind accept "$t/behind" --sheet "$t/one.sheet"
has out "????  rebuild from the pack's own schema: the scene with the definitions of the pack takes too many steps to be laid"

# packs STATUS SHEET SHAPE TEXT: packing ends within its bounds with this message; a pack is there on success alone.
packs() {
    : >"$t/status"
    (
        ulimit -v $memory; ulimit -t $seconds
        got=0; "$S" pack "$t/$2" --schema "$t/$3" -o "$t/packed" >"$t/out" 2>"$t/err" || got=$?
        echo $got >"$t/status"
    )
    ok "$3, pack $2: status $(cat "$t/status")" [ "$(cat "$t/status")" = "$1" ]; has err "$4"
    if [ "$1" = 0 ]; then ok "$3, pack $2" [ -s "$t/packed" ]; rm -f "$t/packed"; else gone "$t/packed"; fi
}
long="takes too many steps; --no-limit packs it all the same"
for shape in children:children lacking:one behind:one entries:entries noted:one flags:numbers remarks:types \
    staggered:first infos:many used:many rounds:rounds parts:parts; do
    packs 1 "${shape#*:}.sheet" "${shape%:*}" "$long"
done
packs 0 many.sheet faults "packed"
packs 0 parts.sheet fewer_parts "note: "
packs 1 many.sheet members "refusal 9: "
packs 1 deep.sheet deep "refusal 8: "
for shape in sections maps shared staggered enums.schema; do packs 1 one.sheet $shape "refusal 7: "; done
packs 0 one.sheet index.schema "remark: "
# A scene of twice the limit.
mkdir "$t/quarter"; "$tools/hostile" "$t/quarter" 4
run 1 pack "$t/quarter/numbers.sheet" --schema "$t/quarter/flags" -o "$t/packed"; has err "$long"; gone "$t/packed"
run 0 pack "$t/quarter/numbers.sheet" --schema "$t/quarter/flags" -o "$t/packed" --no-limit

# The work grows with the input and the output: counted in instructions, a shape of twice the size takes little more than
# twice as many.
counted() {
    valgrind --tool=callgrind --callgrind-out-file=/dev/null "$S" "$@" 2>"$t/err" >"$t/out" || true
    sed -n 's/.*Collected : \([0-9]*\).*/\1/p' "$t/err" | tr -d ,
}
grows() {
    words=$1 small=$(counted $(echo "$1" | sed "s|@|$t/small|g")) large=$(counted $(echo "$1" | sed "s|@|$t/large|g"))
    ok "$words: $small and $large instructions" [ "${small:-0}" -gt 0 -a "${large:-0}" -le $((small * 5 / 2)) ]
}
if command -v valgrind >/dev/null 2>&1; then
    mkdir "$t/small" "$t/large"; "$tools/hostile" "$t/small" 100; "$tools/hostile" "$t/large" 50
    for shape in maps sections shared staggered shared.schema enums.schema index.schema; do grows "read @/$shape"; done
    grows "read @/maps --json"; grows "read @/shared --json"; grows "dump @/many.sheet"
    grows "pack @/many.sheet --schema @/faults -o @/packed"
    grows "accept @/faults --sheet @/many.sheet"; grows "accept @/nowhere --sheet @/few.sheet"
else
    echo "cli/test: valgrind is missing: the work was not counted"
fi
