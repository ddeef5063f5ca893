# On a terminal: a line about a long file, and no pack on the screen.
if command -v script >/dev/null 2>&1; then
    { cat "$e/case1/case1.pso"; printf 'JUNK\0\220\0\0'; head -c 9437176 /dev/zero; } >"$t/long"
    script -qec "$S read $t/long" "$t/out" >/dev/null 2>&1 </dev/null || true
    has out "reading $t/long: "; has out "root: block 1"
    script -qec "$S pack - --schema $e/case1/case1.schema <$e/case1/case1.sheet" "$t/out" >/dev/null 2>&1 </dev/null || true
    has out "the standard output is a terminal"
    run 0 read "$t/long"; empty err
else
    echo "cli/test: script(1) is missing: the terminal was not tried"
fi
