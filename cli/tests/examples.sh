# The examples are what examples/make.rs writes; the programs in C and Rust give the same packs, and say why they cannot.
"$tools/make" "$t/made"
for scene in hall road; do same "$t/made/$scene/$scene.names" "$e/$scene/$scene.names"; done
for scene in case1 hall road; do
    same "$t/made/$scene/$scene.sheet" "$e/$scene/$scene.sheet"
    same "$t/made/$scene/$scene.schema" "$e/$scene/$scene.schema"
done

# The program in C runs once more under the compiler's sanitizers: status 99 where they find something.
programs="pack_c pack_rust"
got=0
{ "$CC" -g -fsanitize=address,undefined -fno-sanitize-recover=all -I include -o "$tools/pack_watched" examples/pack.c \
    target/cli/libsandvurek.a && "$tools/pack_watched"; } >/dev/null 2>&1 || got=$?
if [ "$got" = 2 ]; then
    programs="$programs pack_watched"
else
    echo "cli/test: $CC has no sanitizers that run here; examples/pack.c was not tried under them"
fi
watch=exitcode=99
export ASAN_OPTIONS=$watch UBSAN_OPTIONS=$watch LSAN_OPTIONS=$watch:use_stacks=0:use_registers=0

# tried STATUS WORDS...: the program with these words ends with this status, and prints messages alone.
tried() {
    status=$1; shift
    got=0; "$tools/$program" "$@" >"$t/out" 2>"$t/err" || got=$?
    ok "$program $*: status $got, expected $status" [ "$got" = "$status" ]; empty out
}

sheet=$e/case1/case1.sheet schema=$e/case1/case1.schema
: >"$t/empty"
# A lamp's power as text: a decimal, and a float's text that is none.
for bytes in "decimal 060" "float 145"; do
    cp "$e/hall/hall.sheet" "$t/${bytes% *}"; poke "$t/${bytes% *}" "$(place "$e/hall/hall.sheet" bright)" 061 062 056 065 "${bytes#* }" 060
done
# Definitions behind a section of 16 MiB.
{ printf 'NONE\001\000\000\000'; head -c 16777208 /dev/zero; cat "$schema"; } >"$t/long"
for program in $programs; do
    tried 0 "$sheet" "$schema" "$t/$program.case1"; empty err; same "$t/$program.case1" "$e/case1/case1.pso"
    tried 0 "$e/hall/hall.sheet" "$e/hall/hall.schema" "$t/$program.hall"; same "$t/$program.hall" "$e/hall/hall.pso"
    has err "remark 2: structure 0xC8FDDC97, member 0x9F5ED20C, detail 3"
    tried 0 "$e/road/road.sheet" "$e/road/road.schema" "$t/$program.road"; empty err; same "$t/$program.road" "$e/road/road.pso"
    tried 0 "$t/decimal" "$e/hall/hall.schema" "$t/$program.decimal"; empty err
    tried 0 "$sheet" "$t/long" "$t/$program.long"; same "$t/$program.long" "$e/case1/case1.pso"
    tried 2 "$sheet" "$schema"; has err "pack SHEET SCHEMA OUT"

    # Refusals, and inputs that cannot be read.
    tried 1 "$schema" "$schema" "$t/none"; has err "$schema: refusal 1"
    tried 1 "$t/empty" "$schema" "$t/none"; has err "$t/empty: refusal 1"
    tried 1 "$t/long" "$schema" "$t/none"; has err "$t/long: refusal 1"
    tried 1 "$sheet" "$sheet" "$t/none"; has err "$sheet: refusal 4"
    tried 1 "$t/float" "$e/hall/hall.schema" "$t/none"; has err "$t/float: refusal 11"
    tried 1 "$sheet" "$t/empty" "$t/none"; has err "$sheet with $t/empty: refusal 7"
    tried 1 "$t/missing" "$schema" "$t/none"; has err "$t/missing: No such file or directory"
    tried 1 "$sheet" "$t/missing" "$t/none"; has err "$t/missing: No such file or directory"
    tried 1 "$t" "$schema" "$t/none"; has err "$t: Is a directory"
    tried 1 "$sheet" "$t" "$t/none"; has err "$t: Is a directory"
    gone "$t/none"

    # Outputs that cannot be written: no part of a pack is left.
    tried 1 "$sheet" "$schema" "$t/missing/a.pso"; has err "$t/missing/a.pso: No such file or directory"
    tried 1 "$sheet" "$schema" /dev/full; has err "/dev/full: No space left on device"
    ok "/dev/full is a device" [ -c /dev/full ]
    got=0
    (trap '' XFSZ; ulimit -f 1; exec "$tools/$program" "$e/hall/hall.sheet" "$e/hall/hall.schema" "$t/half") \
        >"$t/out" 2>"$t/err" || got=$?
    ok "$program: status $got for a file that is too large" [ "$got" = 1 ]; has err "$t/half: File too large"; gone "$t/half"

    # Too little memory.
    got=0
    if [ "$program" = pack_watched ]; then
        ASAN_OPTIONS=$watch:allocator_may_return_null=1:max_allocation_size_mb=8 \
            "$tools/$program" "$sheet" "$schema" "$t/none" >"$t/out" 2>"$t/err" || got=$?
        ok "$program: status $got without memory" [ "$got" = 1 ]; has err "buffers: Cannot allocate memory"; got=0
        ASAN_OPTIONS=$watch:allocator_may_return_null=1:max_allocation_size_mb=8 \
            "$tools/$program" "$sheet" "$t/long" "$t/none" >"$t/out" 2>"$t/err" || got=$?
        ok "$program: status $got without memory" [ "$got" = 1 ]; has err "$t/long: Cannot allocate memory"
    else
        (ulimit -v 30000; exec "$tools/$program" "$sheet" "$schema" "$t/none") >"$t/out" 2>"$t/err" || got=$?
        ok "$program: status $got without memory" [ "$got" = 1 ]; has err "buffers: "
    fi
    gone "$t/none"
done
unset ASAN_OPTIONS LSAN_OPTIONS UBSAN_OPTIONS

# The header in strict C and in C++.
ok "the header in C" "$CC" -std=c11 -Wall -Wextra -pedantic -Werror -I include -fsyntax-only examples/pack.c
cat >"$t/header.cpp" <<'END'
#include <sandvurek.h>
int main() { return sandvurek_read(reinterpret_cast<const uint8_t *>("PSIN"), 4).code == 17 ? 0 : 1; }
END
if echo 'int main() {}' | "$CC" -x c++ -fsyntax-only - >/dev/null 2>&1; then
    ok "the header in C++" "$CC" -std=c++11 -Wall -Wextra -pedantic -Werror -I include -o "$t/header" "$t/header.cpp" \
        target/cli/libsandvurek.a
    ok "a call from C++" "$t/header"
else
    echo "cli/test: $CC has no C++; the header was not tried in it"
fi
