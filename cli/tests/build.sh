# Building in a copy of the tree, with stand-ins for rt, its kit, cargo and apt-get.
mkdir "$t/tree" "$t/full"
cp -r cli "$t/tree"
for folder in $(sed -n 's/.*path = "\.\.\/\([^"]*\)".*/\1/p' cli/Cargo.toml); do cp -r "$folder" "$t/tree"; done
# Seven crates, of which the exports need six, the kit's io not among them.
printf '%s\n' '# crates' 'numbers:' 'hash: numbers' 'members: numbers' 'sandvurek_c staticlib: writers sandvurek # exports' 'writers: members io' \
    'sandvurek: writers hash' 'vectors: writers io' >"$t/tree/crates.txt"
for name in numbers hash members writers sandvurek sandvurek_c; do mkdir -p "$t/tree/crates/$name/src"; : >"$t/tree/crates/$name/src/lib.rt"; done
stand_ins=$root/cli/tests/stand-ins

# build STATUS [NAME=VALUE...] [WORDS...]: cli/build of the copy. $t/calls has what it called.
build() {
    status=$1; shift
    : >"$t/calls"; got=0
    (cd "$t/tree" && in_copy "$@") >"$t/out" 2>"$t/err" || got=$?
    ok "cli/build $*: status $got, expected $status" [ "$got" = "$status" ]
}
in_copy() (
    unset LIBRARY
    export "CALLS=$t/calls" "ARCHIVE=$root/target/cli/libsandvurek.a" "RT=$stand_ins/rt" "KIT=$stand_ins/kit"
    export "CARGO=$stand_ins/cargo" "REGISTRY=$t/full"
    while case ${1:-} in *=*) true ;; *) false ;; esac; do export "$1"; shift; done
    PATH="$stand_ins:$PATH" cli/build "$@"
)
calls() { ok "$1 calls of $2" [ "$(grep -c "^$2" "$t/calls")" = "$1" ]; }

# The library: a line for each crate, and nothing the second time.
built=$t/tree/target/staticlib/libsandvurek.a
build 0 library; empty out; same "$built" target/cli/libsandvurek.a
has err "proving: crate 1 of 6, numbers"; has err "proving: crate 3 of 6, writers"; has err "proving: crate 6 of 6, sandvurek_c"
ok "6 lines" [ "$(grep -c '^proving: ' "$t/err")" = 6 ]; calls 1 rt\ lib
build 0 library; empty err; calls 0 rt
touch "$t/tree/crates/hash/src/lib.rt"; build 0 library; calls 1 rt\ lib
mkdir "$t/tree/crates/hash/specs"; build 0 library; calls 1 rt\ lib
touch "$t/tree/crates.txt"
build 1 FAIL=1 library; has err "rt: the library writers did not build"; has err "target/cli/staticlib.log has all of it"
build 2 RT=no-rt library; has err "no-rt is needed and was not found"
if command -v script >/dev/null 2>&1; then
    : >"$t/calls"; CALLS=$t/calls ARCHIVE=$root/target/cli/libsandvurek.a RT=$stand_ins/rt \
        script -qec "env -u LIBRARY $t/tree/cli/build library" "$t/out" >/dev/null 2>&1 </dev/null || true
    ok "one line on a terminal" grep -q "$(printf '\rproving: crate 6 of 6, sandvurek_c\033')" "$t/out"
fi

# Over what rt ci has proved nothing is proved again, unless something was changed since or another command of rt's took its place.
proved_all() { for name in numbers hash members writers sandvurek; do rm -rf "$t/tree/crates/$name/out"; mkdir -p "$t/tree/crates/$name/out/rlib/$name.rlib"; done; }
touch "$t/tree/crates.txt"; proved_all; rm "$built"
build 0 library; has err "building the library over what rt ci proved"; lacks err "proving:"; same "$built" target/cli/libsandvurek.a
calls 1 rattle\ build; calls 0 rt\ lib
ok "the libraries that the exports name" \
    grep -qF -- "--extern writers=$t/tree/crates/writers/out/rlib/writers.rlib --extern sandvurek=$t/tree/crates/sandvurek/out/rlib/sandvurek.rlib -L" "$t/calls"
build 0 library; empty err; calls 0 rt
proved_all; touch "$t/tree/crates/members/src/lib.rt"; build 0 library; calls 0 rattle; calls 1 rt\ lib
proved_all; rmdir "$t/tree/crates/hash/out/rlib/hash.rlib"; rm "$built"; build 0 library; calls 0 rattle; calls 1 rt\ lib
proved_all; : >"$t/tree/crates/hash/out/rlib/stamp"; rm "$built"; build 0 library; calls 0 rattle; calls 1 rt\ lib
proved_all; rm "$built"; build 1 FAIL=1 library; calls 1 rattle\ build; calls 1 rt\ lib; gone "$built"

# Two at once: the second waits and finds all done.
touch "$t/tree/crates.txt"; : >"$t/calls"
for k in 1 2; do
    : >"$t/err.$k"
    (cd "$t/tree" && in_copy "WAIT=$t/go" library) >/dev/null 2>"$t/err.$k" & eval "job$k=$!"
    tries=0
    while ! grep -q "members\|waiting" "$t/err.$k" && [ $tries -lt 400 ]; do sleep 0.05; tries=$((tries + 1)); done
done
touch "$t/go"
got=0; wait "$job1" || got=$?; ok "status $got of the first" [ "$got" = 0 ]
got=0; wait "$job2" || got=$?; ok "status $got of the second" [ "$got" = 0 ]
cp "$t/err.2" "$t/err"; has err "waiting for another build"; lacks err "proving"; calls 1 rt\ lib; calls 1 rt\ ends

# The command line. What is missing is said before the proof.
touch "$t/tree/crates.txt"
build 2 CARGO=no-cargo; has err "no-cargo is needed and was not found"; calls 0 rt
build 2 RUSTC=no-rustc; has err "no-rustc is needed and was not found"; calls 0 rt
build 3; calls 0 rt; calls 2 apt-get; calls 1 "apt-get -q update"; calls 1 "cargo fetch --offline"
for package in clap clap-complete serde serde-derive serde-json; do has err "    librust-$package-dev ("; done
has err "librust-clap-dev (clap 4.0.32)"; ok "15 packages" [ "$(grep -c '    librust-.*-dev (' "$t/err")" = 15 ]
# From the user's own registry, then from Debian's packages, which are installed.
build 0 FETCHED=1; calls 1 "cargo build"; gone "$t/tree/target/cli/mirror/cli/.cargo/config.toml"
build 0; empty err; calls 0 cargo
touch "$t/tree/cli/src/main.rs"
build 0 INSTALLS=1; has err "installing librust-bitflags-dev librust-clap-dev"; calls 1 apt-get; calls 0 "cargo fetch"; calls 0 rt
has err "librust-unicode-ident-dev"
ok "the sources are Debian's" grep -qF "directory = \"$t/full\"" "$t/tree/target/cli/mirror/cli/.cargo/config.toml"
touch "$t/tree/cli/Cargo.toml"; build 0; calls 0 apt-get; calls 1 "cargo build"
# Another library is linked anew.
cp "$root/target/cli/libsandvurek.a" "$t/other"; printf ' ' >>"$t/other"
build 0 "LIBRARY=$t/other"; calls 1 "cargo build"; calls 0 rt
# Cargo's own judgement of what is at hand.
if command -v cargo >/dev/null 2>&1 && [ -d /usr/share/cargo/registry/clap-4.0.32 ]; then
    rm -r "$t/full"; mkdir "$t/home"; touch "$t/tree/cli/Cargo.toml"
    build 3 "FETCH=$(command -v cargo)" "CARGO_HOME=$t/home"; has err "librust-clap-dev"
    printf '[source.crates-io]\nreplace-with = "d"\n[source.d]\ndirectory = "/usr/share/cargo/registry"\n' >"$t/home/config.toml"
    build 0 "FETCH=$(command -v cargo)" "CARGO_HOME=$t/home"
fi
same "$t/tree/cli/Cargo.lock" cli/Cargo.lock; ok "no checksums" sh -c '! grep -q checksum cli/Cargo.lock'
