#!/usr/bin/env bash
# tests/c/check.sh [COUNT]: the library as C sees it. Compiles the header alone; calls every function from C (calls.c, messages.c, weekdays.c, lines.c) and compares with replies written by hand,
# with the C library's calendar and with the second program, on COUNT random requests of each kind (20,000 unless told otherwise). Last, misdeeds done on purpose must be caught.
# Builds the archive by `make`, unless the environment variable BILASHONGE_ARCHIVE names one. Prints a line for each part.
set -euo pipefail
count=${1:-20000}
if [ $# -gt 1 ] || [[ ! $count =~ ^[1-9][0-9]*$ ]]; then
    echo 'usage: tests/c/check.sh [COUNT]' >&2
    exit 2
fi
cd "$(dirname "$0")/../.."
. tests/kit.sh
need gcc gcc libc6-dev
need rustc rustc
work=$(mktemp -d)
trap 'rm -rf "$work"' EXIT
build_second "$work"

# Debian's cross compiler has the address sanitizer, but the emulator can't run it. Where it runs, the program is compiled without it too, and linked statically as it
# is for the emulator: only so does the count of the stack tell what the header promises.
if [ "$(uname -m)" = x86_64 ]; then
    sanitizers=(-fsanitize=address,undefined -fno-sanitize-recover=all -DSTACK_ALLOWED=1000000)
    programs=(lines lines-plain)
else
    sanitizers=(-fsanitize=undefined -fsanitize-undefined-trap-on-error)
    programs=(lines)
fi
# The programs keep their memory to the end.
export ASAN_OPTIONS=detect_leaks=0

# THE HEADER, alone, and included twice
printf '#include "bilashonge.h"\n#include "bilashonge.h"\n' >"$work/alone.c"
for standard in c99 c11; do compile_c "$work/alone.o" "$work/alone.c" -Iinclude -c -std=$standard; done
for standard in c++11 c++17; do compile_cpp "$work/alone.o" "$work/alone.c" -Iinclude -c -std=$standard; done
# Its table of what to tell a crew has the words of the sample.
awk '/what to tell a crew$/ { from = index($0, "what to tell a crew"); next } !from { next } / \*\/$/ { exit }
    $2 ~ /^[0-9]+$/ { printf "%s%s", (told++ ? "\n" : ""), $2 } { printf " %s", substr($0, from) } END { print "" }' include/bilashonge.h >"$work/words"
sed -nE 's/^ *\[(2[2-6])\] = "(.*)",$/\1 \2/p' sample/tablet.c | diff "$work/words" -
[ "$(wc -l <"$work/words")" = 5 ]
echo 'header: compiles alone, without a warning, as C99, C11, C++11 and C++17; tells a crew what the sample does'

# THE ARCHIVE: the header's functions and no others, nothing kept, and nothing called but what every compiler may call
build_archive "$work"
"${target_tools}nm" "$archive" >"$work/names"
diff <(grep -o 'bilashonge_[a-z_]*(' include/bilashonge.h | tr -d '(' | sort) <(awk 'NF >= 3 && $2 ~ /[A-Z]/ { print $3 }' "$work/names" | sort)
kept=$(awk 'NF >= 3 && $2 ~ /[bBdDcCsSgGuvVwWi]/' "$work/names")
called=$(awk '$1 == "U" && $2 !~ /^(memcpy|memmove|memset|memcmp)$/ { print $2 }' "$work/names")
if [ -n "$kept$called" ]; then
    printf 'archive: keeps or calls what it may not: %s\n' "$kept" "$called"
    exit 1
fi
echo "archive: $(awk 'NF >= 3 && $2 == "T"' "$work/names" | wc -l) functions, those of the header; no memory of its own; calls $(awk '$1 == "U" { print $2 }' "$work/names" | sort | paste -s -d ' ') alone"

# BY HAND
compile_c "$work/calls" tests/c/calls.c "$archive" -Iinclude "${sanitizers[@]}"
told=$(run_c "$work/calls")
echo "calls: $told"
compile_c "$work/messages" tests/c/messages.c tests/c/lend.c "$archive" -Iinclude "${sanitizers[@]}"
told=$(run_c "$work/messages")
echo "messages: $told"
compile_c "$work/weekdays" tests/c/weekdays.c "$archive" -Iinclude "${sanitizers[@]}"
told=$(run_c "$work/weekdays")
echo "weekdays: $told"
cat >"$work/plus.cpp" <<'END'
#include "bilashonge.h"
int main() {
    bool unsound = bilashonge_check(nullptr, 0).number == BILASHONGE_DESCRIPTION_LENGTH;
    bool no_reply = bilashonge_read_reply(nullptr, 0).refusal.number == BILASHONGE_NOT_A_REPLY;
    return unsound && no_reply && bilashonge_read_request(nullptr, 0).code == 1 ? 0 : 1;
}
END
# Linked as C, since it needs nothing of C++: Debian's cross compiler can't link C++ statically.
compile_cpp "$work/plus.o" "$work/plus.cpp" -Iinclude -c -std=c++11
compile_c "$work/plus" "$work/plus.o" "$archive"
run_c "$work/plus"
echo 'C++: a program links the archive and is answered'

# THE LINE LANGUAGE, through the C interface
lines=(tests/c/lines.c tests/c/lend.c tests/c/stack.c)
compile_c "$work/lines" "${lines[@]}" "$archive" -Iinclude -pthread "${sanitizers[@]}"
compile_c "$work/lines-plain" "${lines[@]}" "$archive" -Iinclude -pthread -static
# WHAT EXPECTED: the lines in $work/WHAT are answered as EXPECTED says, by each program.
compare() {
    local program
    for program in "${programs[@]}"; do
        run_c "$work/$program" <"$work/$1" >"$work/replies" 2>"$work/errors" || {
            echo "$program, $1: ended with status $?: $(head -c 300 "$work/errors")"
            exit 1
        }
        same_replies "$program, $1" "$work/$1" "$2" "$work/replies"
        echo "$program, $1: $(wc -l <"$work/replies") replies, all as expected, $(grep -cxF "?" "$work/replies" || true) of them ?, the others asked for twice; $(cat "$work/errors")"
    done
}
# WHAT: .. as the second program says.
compare_with_second() {
    "$work/second" <"$work/$1" >"$work/expected"
    compare "$1" "$work/expected"
}
cp tests/second/examples.txt "$work/examples"
compare examples tests/second/examples.expected
write_odd_lines "$work"
for what in odd long octets; do compare_with_second "$what"; done
for kind in check places access calendar messages weekdays elements; do
    "$work/gen" 1 "$count" "$kind" >"$work/$kind"
    compare_with_second "$kind"
done

# WHAT MUST BE CAUGHT: another number in the header; another reply than expected; and each misdeed of misdeeds.c, by what is told of it
mkdir "$work/changed"
sed 's/BILASHONGE_NO_TABLE = 10,/BILASHONGE_NO_TABLE = 99,/' include/bilashonge.h >"$work/changed/bilashonge.h"
compile_c "$work/changed/calls" tests/c/calls.c "$archive" -I"$work/changed"
if told=$(run_c "$work/changed/calls" 2>&1) || ! grep -q 'not so: BILASHONGE_NO_TABLE == 10' <<<"$told"; then
    echo "a header with another number isn't caught: $told"
    exit 1
fi
sed '3s/$/0/' tests/second/examples.expected >"$work/expected"
if told=$(same_replies examples "$work/examples" "$work/expected" tests/second/examples.expected); then
    echo "another reply isn't caught: $told"
    exit 1
fi
wraps=$(awk 'NF >= 3 && $2 == "T" { printf ",--wrap=%s", $3 }' "$work/names")
compile_c "$work/misdeeds" "${lines[@]}" tests/c/misdeeds.c "$archive" -Iinclude -pthread -static "-Wl$wraps"
compile_c "$work/misdeeds-calls" tests/c/calls.c tests/c/misdeeds.c "$archive" -Iinclude -static "-Wl$wraps"
compile_c "$work/misdeeds-messages" tests/c/messages.c tests/c/lend.c tests/c/misdeeds.c "$archive" -Iinclude -static "-Wl$wraps"
compile_c "$work/misdeeds-weekdays" tests/c/weekdays.c tests/c/misdeeds.c "$archive" -Iinclude -static "-Wl$wraps"
# What the misdeeds are tried on: the examples, some messages that fit their rooms and some that don't, and elements that are there and some that aren't.
{ cat "$work/examples" && "$work/gen" 2 1000 messages && "$work/gen" 2 1000 elements; } >"$work/tried"
"$work/second" <"$work/tried" >"$work/expected"
# NUMBER STATUS TEXT: with that misdeed the program ends with that status and tells that text.
caught() {
    local status=0
    MISDEED=$1 run_c "$work/misdeeds" <"$work/tried" >"$work/replies" 2>"$work/errors" || status=$?
    if [ "$status" != "$2" ] || ! grep -qF -- "$3" "$work/errors"; then
        echo "misdeed $1: status $status, told: $(head -c 300 "$work/errors"); expected $2: $3"
        exit 1
    fi
}
caught 0 0 'octets of stack'
same_replies 'no misdeed' "$work/tried" "$work/expected" "$work/replies"
for misdeed in 1 2 3 4 6 11 14 18 19 20 25 26 27 28 34 41 45 47 54 59 60; do caught $misdeed 2 "memory touched that wasn't lent, or written that is lent to be read"; done
for misdeed in 5 22 69; do caught $misdeed 2 'another reply when asked again'; done
for misdeed in 7 23; do caught $misdeed 2 "a place that isn't inside the image"; done
for misdeed in 8 21 24 39 42 52 55 65 67; do caught $misdeed 2 'refused, but not every value is 0'; done
caught 9 2 'image, at the end: an octet beside what was lent has been written'
caught 10 2 'image, at the start: an octet beside what was lent has been written'
for misdeed in 12 16 37 50 63; do caught $misdeed 2 'other octets written when asked again'; done
for misdeed in 13 17 29 36 49 62; do caught $misdeed 2 'refused, but lent octets have changed'; done
caught 15 2 'a call has taken more stack than it may'
for misdeed in 35 48 61; do caught $misdeed 2 'room written past the message'; done
for misdeed in 38 51 64; do caught $misdeed 2 "a message that isn't inside its room"; done
for misdeed in 40 53 57 66 68 {91..95}; do caught $misdeed 2 'a refusal that reports an item, an octet or a depth'; done
for misdeed in 43 56 58; do caught $misdeed 2 "data that aren't inside the message"; done
# These touch nothing that they may not: the replies tell.
for misdeed in 30 31 32 33 44 46 {70..90}; do
    caught $misdeed 0 'octets of stack'
    if told=$(same_replies "misdeed $misdeed" "$work/tried" "$work/expected" "$work/replies"); then
        echo "misdeed $misdeed: every reply is as expected"
        exit 1
    fi
done
# NAME NUMBER..: by hand, in NAME.c, each of these misdeeds is told, by a check that fails or by the memory.
caught_by_hand() {
    local misdeed
    run_c "$work/misdeeds-$1" >"$work/replies"
    for misdeed in "${@:2}"; do
        if MISDEED=$misdeed run_c "$work/misdeeds-$1" >"$work/replies" 2>"$work/errors" || ! grep -qE 'not so|lent' "$work/errors"; then
            echo "misdeed $misdeed: not told by $1.c: $(head -c 300 "$work/errors")"
            exit 1
        fi
    done
}
caught_by_hand messages {23..66} {91..94}
caught_by_hand weekdays {67..71} 95
caught_by_hand calls {72..90}
echo 'must be caught: another number in the header, another reply, and 95 misdeeds, 73 of them by hand too: all told'
