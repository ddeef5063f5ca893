# What the tests share. $S is the program, $t an empty directory, $e the examples.
passed=0
failed=0

# ok WHAT COMMAND...: the command succeeds.
ok() {
    what=$1; shift
    if "$@" >/dev/null 2>&1; then
        passed=$((passed + 1))
    else
        failed=$((failed + 1))
        echo "FAIL $part: $what"
        [ ! -s "$t/out" ] || sed 's/^/    out: /' "$t/out" | head -n 5
        [ ! -s "$t/err" ] || sed 's/^/    err: /' "$t/err" | head -n 5
    fi
}

# run STATUS WORDS...: the program with these words ends with this status.
run() {
    status=$1; shift
    got=0
    "$S" "$@" >"$t/out" 2>"$t/err" </dev/null || got=$?
    ok "sandvurek $*: status $got, expected $status" [ "$got" = "$status" ]
}

# has out|err TEXT: the text stands in it. lacks: it does not.
has() { ok "no '$2' in $1" grep -qF -- "$2" "$t/$1"; }
lacks() { ok "'$2' in $1" sh -c '! grep -qF -- "$1" "$2"' sh "$2" "$t/$1"; }
# empty out|err
empty() { ok "$1 is not empty" [ ! -s "$t/$1" ]; }
# same FILE FILE
same() { ok "$1 and $2 differ" cmp -s "$1" "$2"; }
gone() { ok "$1 is there" [ ! -e "$1" ]; }

# poke FILE BYTE OCTAL...: sets bytes from a place on.
poke() {
    file=$1 at=$2; shift 2
    # shellcheck disable=SC2059
    for o in "$@"; do printf "\\$o"; done | dd of="$file" bs=1 seek="$at" conv=notrunc 2>/dev/null
}

# place FILE TEXT: the first byte of a text in a file.
place() { LC_ALL=C grep -abo -- "$2" "$1" | head -n 1 | cut -d: -f1; }

# left DIRECTORY: how many temporary files are left there.
left() { find "$1" -name '.sandvurek-*' | wc -l | tr -d ' '; }
