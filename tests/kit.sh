# Sourced by the scripts of this repository: how what they compare is built, and how a program is run that was built. Programs are x86-64; on another processor Debian's
# emulator runs them.
. tests/packages.sh

# C is compiled for x86-64 as well: on another processor by Debian's cross compilers, and linked statically, as there is no C library that a program could load by itself.
emulator=()
target_tools=
target_link=()
if [ "$(uname -m)" != x86_64 ]; then
    need qemu-x86_64 qemu-user >&2
    emulator=(qemu-x86_64 -cpu max)
    target_tools=x86_64-linux-gnu-
    target_link=(-static)
fi

# copy_crate NAME FOLDER: the crate's files as FOLDER/crates/NAME, without its must-fail edits and what rt keeps.
copy_crate() {
    mkdir -p "$2/crates/$1"
    find "crates/$1" -mindepth 1 -maxdepth 1 \( -name src -o -name specs -o -name proofs \) -exec cp -r -t "$2/crates/$1" {} +
}

# build_lines FOLDER: `line_program` is the line program: what BILASHONGE_LINES names, else proved and built by `rt run`; what that prints is shown where it fails.
build_lines() {
    line_program=${BILASHONGE_LINES:-crates/lines/out/lines}
    [ -z "${BILASHONGE_LINES:-}" ] || return 0
    (cd crates/lines && rt run) </dev/null >"$1/log" 2>&1 || {
        cat "$1/log"
        return 1
    }
}

# run_lines: the line program, as a filter, once build_lines has named it. It loads its C library, on another processor from Debian's cross compiler.
run_lines() {
    local loader
    if [ -z "$target_tools" ]; then
        "$line_program"
    else
        need_c >&2
        loader=$("${target_tools}gcc" -print-file-name=ld-linux-x86-64.so.2)
        "${emulator[@]}" "$loader" --library-path "${loader%/*}" "$line_program"
    fi
}

# need_c: the C compiler for x86-64.
need_c() {
    if [ -n "$target_tools" ]; then need "${target_tools}gcc" gcc-x86-64-linux-gnu libc6-dev-amd64-cross; else need gcc gcc libc6-dev; fi
}

# compile_c OUT FILE.. [FLAGS], compile_cpp OUT FILE.. [FLAGS]: C99 or C++ for x86-64, unless a flag names another standard. A warning is an error. Where the header and
# the archive are is for the caller to say.
compile_c() {
    need_c
    compile_by "${target_tools}gcc" "$1" -std=c99 "${@:2}"
}
compile_cpp() {
    if [ -n "$target_tools" ]; then need "${target_tools}g++" g++-x86-64-linux-gnu libc6-dev-amd64-cross; else need g++ g++ libc6-dev; fi
    compile_by "${target_tools}g++" "$1" "${@:2}"
}
compile_by() {
    "$1" -O2 -g -Wall -Wextra -Wpedantic -Werror "${@:3}" "${target_link[@]}" -o "$2"
}

# run_c PROGRAM [ARGUMENTS]: a program that compile_c or compile_cpp wrote.
run_c() {
    "${emulator[@]}" "$@"
}

# build_second FOLDER: the second program and its generator of requests, as FOLDER/second and FOLDER/gen.
build_second() {
    rustc --edition 2021 -O tests/second/src/main.rs -o "$1/second"
    rustc --edition 2021 -O tests/second/gen.rs -o "$1/gen"
}

# build_archive FOLDER: `archive` is the library for C: what BILASHONGE_ARCHIVE names, else built by `make`; what that prints is shown where it fails.
build_archive() {
    archive=${BILASHONGE_ARCHIVE:-target/staticlib/libbilashonge.a}
    [ -z "${BILASHONGE_ARCHIVE:-}" ] || return 0
    need make make
    make >"$1/log" || {
        cat "$1/log"
        return 1
    }
}

# same_replies WHAT REQUESTS EXPECTED REPLIES: fails unless both files of replies are the same and not empty; shows the first lines that differ.
same_replies() {
    if [ -s "$3" ] && cmp -s "$3" "$4"; then return; fi
    paste -d '\t' "$3" "$4" "$2" | awk -F '\t' -v what="$1" '
        $1 != $2 { if (++wrong <= 5) print "line " NR ": expected " substr($1, 1, 60) ", got " substr($2, 1, 60) ": " substr($3, 1, 120) }
        END { print what ": " wrong + 0 " of " NR " lines are answered otherwise than expected" }'
    return 1
}

# write_odd_lines FOLDER: lines of no form and arbitrary octets, as FOLDER/odd, long and octets. FOLDER has the generator and the second program.
write_odd_lines() {
    local length
    "$1/gen" 1 20000 lines >"$1/odd"
    # lengths round the longest that is taken, and a last line without line feed
    for length in 299999 300000 300001 300002 65535 65536 65537 600000; do
        printf 'check %*s\n' $((length - 6)) '' | tr ' ' 0
    done | sed 's/^check0/check /' >"$1/long"
    # images about as long as a line can have
    for length in 299998 299999 300000 300001 300002; do
        printf 'layout 1000000120100000 %s\n' "$(head -c $((length - 24)) /dev/zero | tr '\0' 0)"
    done >>"$1/long"
    printf 'check' >>"$1/long"
    # octets of every kind: a program's own text, line feeds among them
    head -c 1000000 "$1/second" >"$1/octets"
}
