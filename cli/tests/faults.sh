# Files that fail. An old pack is never lost.
good="$e/case1/case1.sheet --schema $e/case1/case1.schema"
old() { printf 'an old pack' >"$t/old.pso"; cp "$t/old.pso" "$t/before"; }
whole() { same "$t/old.pso" "$t/before"; }
old

# Inputs.
run 1 pack "$t/missing" --schema "$e/case1/case1.schema"; has err "missing: No such file or directory"; gone "$t/missing.pso"
run 1 pack "$e/case1/case1.sheet" --schema "$t/missing" -o "$t/old.pso"; has err "missing: No such file"; whole
run 1 pack "$t" --schema "$e/case1/case1.schema" -o "$t/old.pso"; has err "Is a directory"; whole
run 1 read "$t/missing"; has err "No such file"; empty out
run 1 read "$t"; has err "Is a directory"
run 1 dump "$t/missing"; has err "No such file"
run 2 accept "$t/missing" --sheet "$e/case1/case1.sheet"; has err "No such file"; empty out
run 2 accept "$e/case1/case1.pso" --sheet "$t/missing"; has err "No such file"; empty out; lacks err "try:"
run 2 accept "$e/case1/case1.pso" --sheet "$e/case1/case1.sheet" --schema "$t/missing"; has err "No such file"
run 2 accept "$e/case1/case1.pso" --sheet "$e/case1/case1.sheet" --names "$t/missing"; has err "No such file"
truncate -s 268435457 "$t/huge"
run 1 read "$t/huge"; has err "longer than 268,435,456 bytes"
run 1 pack "$e/case1/case1.sheet" --schema "$t/huge" -o "$t/old.pso"; has err "longer than 268,435,456 bytes"; whole
rm "$t/huge"
if [ "$(id -u)" != 0 ]; then
    cp "$e/case1/case1.sheet" "$t/secret"; chmod 000 "$t/secret"
    run 1 dump "$t/secret"; has err "Permission denied"
fi

# Outputs. A refusal leaves an old file as it is.
run 1 pack "$e/case1/case1.sheet" --schema "$e/hall/hall.schema" -o "$t/old.pso"; has err "refusal 7"; whole
chmod 444 "$t/old.pso"
run 1 pack $good -o "$t/old.pso"; has err "read-only; it was left as it is"; whole
chmod 640 "$t/old.pso"
run 1 pack $good -o "$t"; has err "is a directory"
run 1 pack $good -o "$t/none/a.pso"; has err "No such file or directory; the pack was not written"
run 1 pack $good -o "$t/old.pso/a.pso"; has err "Not a directory"; whole
run 1 pack $good -o /dev/full; has err "/dev/full: No space left on device; the pack was not written"
ok "/dev/full is a device" [ -c /dev/full ]
run 0 pack $good -o /dev/null; ok "/dev/null is a device" [ -c /dev/null ]
ln -s nowhere "$t/link"; run 1 pack $good -o "$t/link"; has err "a link that leads to no file"
got=0; "$S" pack $good -o - >/dev/full 2>"$t/err" || got=$?
ok "status $got for a full standard output" [ "$got" = 1 ]; has err "standard output: No space left"
got=0; "$S" read "$e/hall/hall.pso" >/dev/full 2>"$t/err" || got=$?
ok "status $got for a full standard output" [ "$got" = 1 ]; has err "standard output: No space left"
ok "a reader that goes away" sh -c '"$1" read "$2" 2>"$3" | head -n 1 >/dev/null && ! grep -q panic "$3"' sh "$S" "$e/hall/hall.pso" "$t/err"

# A closed standard output, and one that is not for writing. /dev/null takes all.
of_case1="$e/case1/case1.pso --sheet $e/case1/case1.sheet"
for words in "pack $good -o -" "pack $good -o $t/new.pso --json" "read $e/hall/hall.pso" "read $e/hall/hall.pso --json" \
    "accept $of_case1" "dump $e/hall/hall.sheet" --help --version "help pack" "completions bash"; do
    # A verdict that nobody reads is none.
    due=1; case $words in accept*) due=2 ;; esac
    got=0; "$S" $words >&- 2>"$t/err" || got=$?
    ok "status $got of $words >&-" [ "$got" = $due ]; has err "standard output: it is closed"
    got=0; "$S" $words 1</dev/null 2>"$t/err" || got=$?
    ok "status $got of $words 1</dev/null" [ "$got" = $due ]; has err "standard output: Bad file descriptor"
    got=0; "$S" $words >/dev/null 2>"$t/err" || got=$?
    ok "status $got of $words >/dev/null" [ "$got" = 0 ]
done
rm "$t/new.pso"
got=0; "$S" pack $good -o "$t/new.pso" >&- 2>&- || got=$?
ok "status $got of a pack without output" [ "$got" = 0 ]; same "$t/new.pso" "$e/case1/case1.pso"

# The output is not an input.
cp "$e/hall/hall.pso" "$t/hall.pso"; cp "$e/hall/hall.sheet" "$t/hall.sheet"; ln -s hall.pso "$t/linked.pso"
run 2 pack "$t/hall.sheet" --schema "$t/hall.pso"; has err "hall.pso is the schema file"; same "$t/hall.pso" "$e/hall/hall.pso"
run 2 pack "$t/hall.sheet" --schema "$t/hall.pso" -o "$t/linked.pso"; has err "is the schema file"
run 2 pack "$t/hall.sheet" --schema "$e/hall/hall.schema" -o "$t/hall.sheet"; has err "hall.sheet is the sheet"
same "$t/hall.sheet" "$e/hall/hall.sheet"

# Faults while writing: the old pack is whole and nothing is left beside it.
for fault in write-full sync-fail rename-fail; do
    old
    got=0; FAULT=$fault LD_PRELOAD=$tools/fault.so "$S" pack $good -o "$t/old.pso" >"$t/out" 2>"$t/err" || got=$?
    ok "$fault: status $got" [ "$got" = 1 ]; has err "old.pso: "; has err "the pack was not written"; whole
    ok "$fault: $(left "$t") temporary files" [ "$(left "$t")" = 0 ]
done

# Killed in the middle of writing, and between writing and renaming: the old pack is whole.
for fault in write-kill rename-kill; do
    old
    got=0
    { (FAULT=$fault LD_PRELOAD=$tools/fault.so exec "$S" pack $good -o "$t/old.pso" >"$t/out" 2>"$t/err") || got=$?; } 2>/dev/null
    ok "$fault: status $got" [ "$got" = 137 ]; whole; lacks err "96 bytes"
    ok "$fault: a temporary file is left" [ "$(left "$t")" = 1 ]
    for f in "$t"/.sandvurek-*; do mv "$f" "$t/$fault"; done
done
ok "half was written" [ "$(wc -c <"$t/write-kill")" = 48 ]
same "$t/rename-kill" "$e/case1/case1.pso"

# Then it is replaced, with the rights that it had; a link stays a link.
ln -s old.pso "$t/link.pso"
run 0 pack $good -o "$t/link.pso"; same "$t/old.pso" "$e/case1/case1.pso"
ok "the rights are kept" [ "$(stat -c %a "$t/old.pso")" = 640 ]
ok "the link is kept" [ -L "$t/link.pso" ]
ok "nothing is left" [ "$(left "$t")" = 0 ]
