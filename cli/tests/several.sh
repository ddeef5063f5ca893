# Several sheets in one call, --strict, --quiet and --json.
hall="--schema $e/hall/hall.schema"
mkdir "$t/d"
for name in a b d/a; do cp "$e/hall/hall.sheet" "$t/$name.sheet"; done
cp "$e/case1/case1.sheet" "$t/c.sheet"

# Each goes to its own pack; what fails does not stop the others.
run 1 pack "$t/a.sheet" "$t/c.sheet" "$t/missing.sheet" "$t/b.sheet" "$t/d/a.sheet" $hall; empty out
for name in a b d/a; do same "$t/$name.pso" "$e/hall/hall.pso"; has err "$t/$name.pso: 1,244 bytes"; done
gone "$t/c.pso"; has err "c.sheet: refusal 7"; has err "missing.sheet: No such file"
ok "the last line counts" [ "$(tail -n 1 "$t/err")" = "3 packed, 1 refused, 1 failed" ]
ok "a remark for each" [ "$(grep -c '^remark: ' "$t/err")" = 3 ]
run 0 pack "$t/a.sheet" "$t/b.sheet" $hall; ok "all are packed" [ "$(tail -n 1 "$t/err")" = "2 packed" ]
run 0 pack "$t/a.sheet" $hall; lacks err " packed"
mkdir "$t/e.pso"; cp "$e/hall/hall.sheet" "$t/e.sheet"
run 1 pack "$t/e.sheet" "$t/a.sheet" $hall; has err "e.pso: is a directory"; has err "1 packed, 1 failed"

# Wrong use: nothing is written, whatever stands where.
wrong() { rm -f "$t"/*.pso "$t"/d/*.pso 2>/dev/null; run 2 pack "$@" $hall; empty out; gone "$t/a.pso"; gone "$t/b.pso"; }
rmdir "$t/e.pso"
cp "$t/a.sheet" "$t/a.old"; ln -s d "$t/link"
wrong "$t/b.sheet" "$t/a.sheet" "$t/a.old"; has err "a.sheet and $t/a.old would both become $t/a.pso; nothing was written"
wrong "$t/a.sheet" "$t/./a.sheet"; has err "would both become"
wrong "$t/b.sheet" "$t/d/a.sheet" "$t/link/a.sheet"; has err "would both become"; gone "$t/d/a.pso"
wrong "$t/a.sheet" "$t/b.sheet" -o "$t/a.pso"; has err "-o names the output of one sheet, there are 2"
wrong - - ; has err "only one file can be the standard input"
wrong "$t/a.sheet" --json -o -; has err "--json needs the standard output"
wrong - --json; has err "--json needs the standard output"
cp "$e/hall/hall.sheet" "$t/x.pso"; run 2 pack "$t/a.sheet" "$t/x.pso" $hall; has err "x.pso is the sheet"; gone "$t/a.pso"
cp "$e/hall/hall.schema" "$t/b.pso"
run 2 pack "$t/a.sheet" "$t/b.sheet" --schema "$t/b.pso"; has err "b.pso is the schema file"; gone "$t/a.pso"
cp "$e/hall/hall.names" "$t/b.pso"
run 2 pack "$t/a.sheet" "$t/b.sheet" $hall --names "$t/b.pso"; has err "b.pso is the names file"; gone "$t/a.pso"

# --strict: a remark fails its sheet, an old pack stays.
printf old >"$t/a.pso"
run 1 pack "$t/a.sheet" --strict $hall; has err "remark: $t/a.sheet: "
has err "a.sheet: 1 remark, and --strict: the pack was not written"; ok "the old pack" [ "$(cat "$t/a.pso")" = old ]
run 0 pack "$e/case1/case1.sheet" --schema "$e/case1/case1.schema" --strict -o "$t/c.pso"; same "$t/c.pso" "$e/case1/case1.pso"
run 1 pack "$t/a.sheet" --strict -o - $hall; empty out

# --quiet: remarks and failures only.
run 0 pack "$t/a.sheet" "$t/d/a.sheet" -q $hall; ok "only remarks" [ "$(grep -vc '^remark: ' "$t/err")" = 0 ]
run 1 pack "$t/missing.sheet" --quiet $hall; has err "No such file"

# --json: one object, the messages as without it.
rm "$t/a.pso" "$t/c.pso"
run 1 pack "$t/a.sheet" "$t/c.sheet" "$t/missing.sheet" $hall; cp "$t/err" "$t/said"
run 1 pack "$t/a.sheet" "$t/c.sheet" "$t/missing.sheet" $hall --json; same "$t/err" "$t/said"; same "$t/a.pso" "$e/hall/hall.pso"
sed "s|$t/||g; s|$e/||g" "$t/out" >"$t/shown"; same "$t/shown" "cli/tests/several.json"
if command -v python3 >/dev/null 2>&1; then ok "the JSON is sound" python3 -m json.tool "$t/out"; fi
run 0 pack "$e/case1/case1.sheet" --schema "$e/case1/case1.schema" --json -q -o "$t/c.pso"; empty err
has out '"code": 0, "message": null, "length": 96, "blocks": 1, "definitions": 1, "remarks": [], "notes": []}'; has out '"packed": 1,'
run 1 pack "$t/a.sheet" --strict --json $hall; has out '"code": null, "message": "'; has out '"remarks": [{"kind": 2'; has out '"failed": 1'
run 1 pack "$t/a.sheet" --schema "$t/missing" --json; empty out; has err "missing: No such file"
got=0; "$S" pack "$t/a.sheet" $hall --json >/dev/full 2>"$t/err" || got=$?
ok "status $got for a full standard output" [ "$got" = 1 ]; has err "standard output: No space left"
