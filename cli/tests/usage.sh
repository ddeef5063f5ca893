# Words of the command line.
usage() { run 2 "$@"; has err "try: sandvurek --help"; empty out; }

usage; has err "no command"
usage unpack; has err "unknown command 'unpack'"
usage pak; has err "unknown command 'pak'; pack is near"
usage pack; has err "missing: --schema FILE, SHEET"
usage pack a.sheet; has err "missing: --schema FILE"
usage pack a.sheet --schema; has err "--schema FILE needs a value"
usage pack a.sheet --schema b --schema c; has err "--schema FILE stands twice"
usage pack a.sheet --schema b --fast; has err "unknown option --fast"
usage pack a.sheet --schema b --root-alone=yes; has err "--root-alone takes no value, 'yes' is one"
usage pack a.sheet --schema b --root-alone --root-alone; has err "--root-alone stands twice"
usage pack a.sheet --shema b; has err "unknown option --shema; --schema is near"
usage pack a.sheet b.sheet --schema c -o d; has err "-o names the output of one sheet, there are 2"
usage pack - --schema -; has err "only one file can be the standard input"
usage pack - --schema a --names -; has err "only one file can be the standard input"
usage read; has err "missing: FILE"
usage read a b; has err "'b' is one file too many"
usage read a --json=yes; has err "--json takes no value, 'yes' is one"
usage read a --root-alone; has err "unknown option --root-alone"
usage accept a; has err "missing: --sheet SHEET"
usage accept --sheet a; has err "missing: PACK"
usage accept - --sheet -
usage accept a --sheet b --alone; has err "unknown option --alone"
usage dump; has err "missing: SHEET"
usage dump -x; has err "unknown option -x"
usage completions; has err "missing: SHELL"
usage completions tcsh; has err "SHELL: 'tcsh' is none of bash, zsh, fish"

# Numbers: digits, for bytes also K, M, G.
for word in much -1 '' 1K1 K 1.5M 99999999999999999999999 99999999999999999G; do
    usage pack a.sheet --schema b "--work=$word"; has err "--work BYTES"
done
usage pack a.sheet --schema b --records 99999999; has err "--records N: '99999999' is too many, 16777216 is the most"
usage pack a.sheet --schema b --records 1K; has err "--records N: '1K' is not a number"
for work in 65544 64K 1M 1g; do
    run 1 pack "$t/none" --schema "$e/case1/case1.schema" --work "$work"; has err "none: No such file"
done

# Help of the program and of each command, and the version.
run 0 --help; empty err; cp "$t/out" "$t/help"
for command in pack read accept dump completions help; do has out "  $command "; done
has out "Exit status: 0 success, 1 refused or failed, 2 wrong use."
run 0 -h; same "$t/out" "$t/help"
run 0 help; same "$t/out" "$t/help"
for command in pack read accept dump completions; do
    run 0 $command --help; empty err; has out "Usage: sandvurek $command "; cp "$t/out" "$t/help"
    run 0 $command -h; same "$t/out" "$t/help"
    run 0 help $command; same "$t/out" "$t/help"
done
run 0 accept --help; has out "Give --schema: without it definitions cannot be compared with the schema file's."
has out "2 wrong use, or it could not be checked"; has out "--root-alone"
run 0 pack --help; for o in --schema --output --work --records --strict --names --json --quiet; do has out "$o"; done
run 0 pack --help; has out "--no-limit"; has out "--root-alone"; has out 'a decimal like "12.5": a sign or none, one to nine digits'
run 0 --version; has out "sandvurek 0."; empty err; cp "$t/out" "$t/version"
run 0 -V; same "$t/out" "$t/version"

# A name that starts with a dash, an option's value behind an equals sign, a name that is no UTF-8.
cp "$e/case1/case1.sheet" "$t/-x.sheet"
(cd "$t" && "$root/$S" pack "--schema=$root/$e/case1/case1.schema" --output x.pso -- -x.sheet >out 2>err)
same "$t/x.pso" "$e/case1/case1.pso"
odd=$t/$(printf '\377'); cp "$e/case1/case1.sheet" "$odd.sheet"
run 0 pack "$odd.sheet" --schema "$e/case1/case1.schema"; same "$odd.pso" "$e/case1/case1.pso"
run 0 dump "$odd.sheet"; run 0 read "$odd.pso"; run 0 accept "$odd.pso" --sheet "$odd.sheet"

# Completion files.
for shell in bash zsh fish; do run 0 completions $shell; has out accept; has out strict; empty err; done
if command -v bash >/dev/null 2>&1; then "$S" completions bash >"$t/bash"; ok "the file for bash" bash -n "$t/bash"; fi
