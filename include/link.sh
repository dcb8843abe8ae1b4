# For the scripts that try C programs against the static library; read from the project's root with
# who= the word that begins their messages. The library is for x86-64: on another processor, and without
# a C compiler, the script ends here.
if [ "$(uname -m)" != x86_64 ]; then
    echo "$who: skipped: the static library is for x86-64, and this is $(uname -m)"
    exit 0
fi
cc=${CC:-gcc}
if ! command -v "$cc" >/dev/null 2>&1; then
    echo "$who: skipped: no C compiler ($cc)"
    exit 0
fi

out=target/c
mkdir -p $out
lib=crates/keeper_c/out/libkeeper_c.a
if [ ! -f $lib ] || [ -n "$(find crates crates.txt -name out -prune -o -newer $lib -type f -print | head -n 1)" ]; then
    echo "$who: proving and building the library (some minutes the first time)"
    (cd crates/keeper_c && rt lib) >$out/library.log 2>&1 || { cat $out/library.log; exit 1; }
    touch $lib
fi

# The program of FOLDER/NAME.c.
build() {
    "$cc" -std=c99 -Wall -Wextra -Werror -O2 -Iinclude "$1/$2.c" $lib -o "$out/$2"
}

# The same, run; what it writes must be FOLDER/NAME.expected.
expect() {
    build "$1" "$2"
    "$out/$2" >"$out/$2.out" || exit 1
    if ! cmp -s "$out/$2.out" "$1/$2.expected"; then
        echo "$who: $2 writes something else than $1/$2.expected:"
        diff "$1/$2.expected" "$out/$2.out" || true
        exit 1
    fi
    echo "$who: $2 writes what is expected"
}
