# Installing, the man page and the library as others link it.
for words in "" --help "a b"; do
    # shellcheck disable=SC2086
    got=0; cli/install $words >"$t/out" 2>"$t/err" || got=$?
    ok "status $got of cli/install $words" [ "$got" = 2 ]; has err "usage: cli/install PREFIX"
done
gone ./--help
p=$t/p
got=0; cli/install "$p" >"$t/out" 2>"$t/err" || got=$?
ok "status $got of cli/install" [ "$got" = 0 ]; has err "sandvurek is in $p"
same "$p/bin/sandvurek" target/cli/sandvurek; ok "it can be run" [ -x "$p/bin/sandvurek" ]
same "$p/lib/libsandvurek.a" target/cli/libsandvurek.a
same "$p/include/sandvurek.h" include/sandvurek.h
same "$p/share/man/man1/sandvurek.1" cli/sandvurek.1
for file in bash-completion/completions/sandvurek zsh/site-functions/_sandvurek fish/vendor_completions.d/sandvurek.fish; do
    ok "$file" grep -q strict "$p/share/$file"
done
ok "8 files" [ "$(find "$p" -type f | wc -l)" = 8 ]
"$p/bin/sandvurek" pack "$e/case1/case1.sheet" --schema "$e/case1/case1.schema" -o "$t/a.pso" 2>"$t/err"
same "$t/a.pso" "$e/case1/case1.pso"

# Under DESTDIR, with a relative PREFIX, and over what is there.
(cd "$t" && DESTDIR=$t/dest "$root/cli/install" q >"$t/out" 2>"$t/err")
same "$t/dest$t/q/bin/sandvurek" target/cli/sandvurek; gone "$t/q"
ok "the prefix is without DESTDIR" grep -qx "prefix=$t/q" "$t/dest$t/q/lib/pkgconfig/sandvurek.pc"
ok "again" cli/install "$p/"

# A program in C.
if command -v pkg-config >/dev/null 2>&1; then
    words=$(PKG_CONFIG_PATH=$p/lib/pkgconfig pkg-config --cflags --libs sandvurek)
    # shellcheck disable=SC2086
    ok "a program in C" "$CC" -o "$t/pack" examples/pack.c $words
    "$t/pack" "$e/hall/hall.sheet" "$e/hall/hall.schema" "$t/c.pso" >"$t/out" 2>"$t/err"; same "$t/c.pso" "$e/hall/hall.pso"
    ok "the version" [ "sandvurek $(PKG_CONFIG_PATH=$p/lib/pkgconfig pkg-config --modversion sandvurek)" = "$("$S" --version)" ]
else
    echo "cli/test: pkg-config is missing: its file was not tried"
fi

# The man page has every option of every command in the command's part, and the version.
sed 's/\\-/-/g; s/\\fI//g; s/\\fR//g; s/"//g' cli/sandvurek.1 >"$t/page"
ok "the version is in the man page" grep -q "^.TH SANDVUREK 1 .*$("$S" --version)" "$t/page"
for command in pack read accept dump completions; do
    sed -n "/^\.SS $command\$/,/^\.S[SH] /p" "$t/page" >"$t/part"
    ok "$command is in the man page" [ -s "$t/part" ]
    for option in $("$S" $command --help | grep -o '^ *\(-., \)\?--[a-z]*' | tr -d ' ' | tr , ' ' | grep -v -- --help); do
        ok "$command: $option is in the man page" grep -q -- "^\.B[IR]* .*$option\b" "$t/part"
    done
done
if command -v groff >/dev/null 2>&1; then
    groff -man -ww -z cli/sandvurek.1 >"$t/out" 2>"$t/err"; empty err
fi
