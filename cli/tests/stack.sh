# Every call in threads with the stack that include/sandvurek.h states, several at once.
stack=131072
ok "the header states the stack" grep -qF "a stack of 131,072 bytes" include/sandvurek.h
got=0
"$tools/stack" $stack "$e/case1/case1.sheet" "$e/case1/case1.schema" "$e/case1/case1.pso" \
    "$e/hall/hall.sheet" "$e/hall/hall.schema" "$e/hall/hall.pso" \
    "$e/road/road.sheet" "$e/road/road.schema" "$e/road/road.pso" >"$t/out" 2>"$t/err" || got=$?
ok "status $got with a stack of $stack bytes" [ "$got" = 0 ]
ok "all scenes were built" [ "$(grep -c ', as expected$' "$t/out")" = 19 ]
most=$(sort -n "$t/out" | tail -n 1 | awk '{ print $1 }')
ok "$most bytes of stack in one call, less than 16,384 below $stack" [ "$((most + 16384))" -le $stack ]
figure=$(sed -n 's/.*takes about \([0-9,]*\) of them.*/\1/p' include/sandvurek.h)
stated=$(echo "${figure:-0}" | tr -d ,)
ok "$most bytes are about the $stated that the header states" [ "$((most - stated))" -lt 2000 -a "$((stated - most))" -lt 2000 ]
ok "README states the same" grep -qF "the deepest scene takes about ${figure:-none})" README.md
# The page below a stack is seen.
got=0; { (ulimit -c 0; exec "$tools/stack" 20480 >"$t/out" 2>"$t/err") || got=$?; } 2>/dev/null
ok "20,480 bytes are enough" [ "$got" != 0 ]
