# Damaged files: whatever a byte is, a command ends with 0 or 1 and a message.
ended() {
    got=0; "$S" "$@" >"$t/out" 2>"$t/err" || got=$?
    if [ "$got" -gt 1 ]; then ok "sandvurek $*: status $got" false; fi
}
tried=0
for f in case1/case1.sheet case1/case1.schema case1/case1.pso hall/hall.sheet hall/hall.schema hall/hall.pso; do
    step=1; case $f in hall/*) step=13 ;; esac
    folder=${f%/*}
    at=0; length=$(wc -c <"$e/$f")
    while [ "$at" -lt "$length" ]; do
        cp "$e/$f" "$t/hurt"; poke "$t/hurt" "$at" "$((at % 4))$((at % 7))7"
        case $f in
            *.sheet) ended dump "$t/hurt"; ended pack "$t/hurt" --schema "$e/$folder/$folder.schema" -o "$t/x.pso" ;;
            *.schema) ended read "$t/hurt"; ended pack "$e/$folder/$folder.sheet" --schema "$t/hurt" -o "$t/x.pso" ;;
            *) ended read "$t/hurt"; ended accept "$t/hurt" --sheet "$e/$folder/$folder.sheet" ;;
        esac
        tried=$((tried + 1)); at=$((at + step))
    done
done
ok "$tried damaged files" [ "$tried" -gt 300 ]
