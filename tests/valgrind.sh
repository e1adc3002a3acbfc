#!/usr/bin/env bash
# The C example under valgrind, with either address reader and either edition, stepping through symbols, touching a byte,
# expanding and looking up names: no fault of memory on lists that are accepted, refused, empty, deep and long, or on names.
set -u
cd "$(dirname "$0")/.." || exit 2
if ! command -v valgrind >/dev/null 2>&1; then
    echo "skipped: valgrind is not installed"
    exit 77 # not counted by the gate
fi
./build-library >/dev/null 2>&1 || { echo "build-library failed"; exit 1; }

seen=0
faults=0

# A text so many times.
times() {
    local i
    for ((i = 0; i < $2; i++)); do printf '%s' "$1"; done
}

# Runs the example with either reader; document 01 says whether it exits with 0, accepted, or 1, refused.
check() {
    run "$1" "$2" "$3"
    run "$1, by table" "$2" --by-table "$3"
}

# Runs the example; a fault of memory is exit 99.
run() {
    local name=$1 wanted=$2 log status fault=
    log=$(valgrind --error-exitcode=99 --leak-check=full target/lib/example "${@:3}" 2>&1 >/dev/null)
    status=$?
    seen=$((seen + 1))
    [ "$status" -eq "$wanted" ] || fault="exit $status, wanted $wanted"
    grep -q 'ERROR SUMMARY: 0 errors' <<<"$log" || fault="valgrind does not say that there are 0 errors; exit $status"
    if [ -n "$fault" ]; then
        faults=$((faults + 1))
        printf '%s: %s\n%s\n' "$name" "$fault" "$log"
    fi
}

check "accepted" 0 'Cooks: Childs at WGBH;, "Al" (away), :Include: "x" <Sam@Y>'
check "empty" 0 ''
check "refused" 1 'a at b c'
check "open quote" 1 '"ab'
check "64 levels" 0 "$(times '<' 64)$(times '>' 64)"
check "65 levels" 1 "$(times '<' 65)$(times '>' 65)"
check "long" 0 "$(times 'Al Neuman at Mad-Host, ' 1424)"
check "more addresses than the table holds" 1 "$(times 'a@b,' 8192)"
check "over 32,768 bytes" 1 "$(times ',' 32769)"
run "edition 822" 0 --edition 822 'Cooks: Childs@WGBH.Boston, J K <,@a.[1],,@b,:"l".m@[2\]]>,;, n@o (away)'
run "edition 822, empty" 0 --edition 822 ''
run "edition 822, refused" 1 --edition 822 'J. Smith <a@b>'
run "edition 822, ends too soon" 1 --edition 822 'a at b'
run "edition 822, open literal" 1 --edition 822 'a@[1'
run "edition 822, backslash at the end" 1 --edition 822 'a@[\'
run "edition 822, bare bracket" 1 --edition 822 'a@[1[2]'
run "edition 822, long" 0 --edition 822 "$(times 'Al.Neuman@Mad-Host, ' 1638)"
run "edition 822, long literal" 0 --edition 822 "a@[$(times '\[' 16382)]"
run "edition 822, as many addresses as the table holds" 0 --edition 822 "$(times 'x<@a:b@c>,' 1024)"
run "edition 822, more addresses than the table holds" 1 --edition 822 "$(times 'x<@a:b@c>,' 1025)"
run "edition 822, over 32,768 bytes" 1 --edition 822 "$(times ',' 32769)"
run "edition 733" 0 --edition 733 'a.b at [c]'
run "other edition" 1 --edition 66269 'a@b'
run "symbols" 0 --symbols 'Cooks: Childs at WGBH;, "A\"l" (away (far)) <x>@)\'
run "symbols, empty" 0 --symbols ''
run "symbols, none" 0 --symbols ' (c) '
run "symbols, folds" 0 --symbols $'\r\n a "b\\\r\n c\r\n\t"(\\\r\n )\r\n '
run "symbols, open quote" 1 --symbols 'a "b'
run "symbols, backslash at the end of an open quote" 1 --symbols 'a "\'
run "symbols, fold cut off in an open quote" 1 --symbols $'"\\\r\n'
run "symbols, open comment" 1 --symbols 'a (b(c)'
run "symbols, backslash at the end of an open comment" 1 --symbols 'a (\'
run "symbols, fold cut off" 1 --symbols $'at\r\n'
run "symbols, CR at the end" 1 --symbols $'at\r'
run "symbols, many" 0 --symbols "$(times 'a,' 16384)"
run "symbols, long" 0 --symbols "\"$(times '\"' 16383)\""
run "symbols, over 32,768 bytes" 1 --symbols "$(times ',' 32769)"
run "touched" 0 --touch 4 'g:<a@b>,;'
run "touched, no record" 0 --touch 0 '(x) "q"'
run "touched at 64 levels" 0 --touch 65 "$(times '<' 64)\"q\"$(times '>' 64)"
run "touched, refused" 1 --touch 0 'a at b c'
run "touched, 65 levels" 1 --touch 0 "$(times '<' 65)"
run "touched, open quote" 1 --touch 0 '"ab'
run "touched, empty" 1 --touch 0 ''
run "touched, far outside" 1 --touch 18446744073709551615 'a@b'
run "touched, last of 2,048" 0 --touch 6142 "$(times '"",' 2048)"
run "touched, more addresses than the table holds" 1 --touch 0 "$(times '"",' 2049)"
run "known name" 0 --name Bcc
run "name, other case" 0 --name 'rEPLY-tO'
run "name, empty" 0 --name ''
run "name, one letter" 0 --name 'T'
run "name, last letter wrong" 0 --name 'Reply-Tx'
run "name, bytes above 127" 0 --name $'\343\343'
run "name, long" 0 --name "$(times 'To' 50000)"
run "name, not given" 2 --name

# A record of a store: the name padded with zeros, the list with spaces.
record() {
    printf '%s' "$1"
    head -c $((64 - ${#1})) /dev/zero
    printf '%-448s' "$2"
}

store=$(mktemp)
trap 'rm -f "$store"' EXIT
{
    record 'a at x' 'm@h, A: <n@h>;'
    record 'itself at x' ':Include: itself at x'
    record 'deeper at x' '<:Include: deeper at x>'
    record 'full at x' "$(times '<' 64)$(times '>' 64)"
    record 'refused at x' 'a at b c'
    record "$(times n 59) at h" "$(times x 446)@h"
    record 'b at y' ''
} >"$store"
run "expanded" 0 --expand "$store" 'u@v, : :Include: L <z@z, a@x>;, :Include: full at x'
run "expanded, nothing" 0 --expand "$store" ''
run "expanded, name and list of full length" 0 --expand "$store" ":Include: $(times n 59)@h"
run "expanded, 64 openings" 0 --expand "$store" "$(times ':Include: a@x,' 64)"
run "expanded, 65 openings" 1 --expand "$store" "$(times ':Include: a@x,' 65)"
run "expanded, opens itself" 1 --expand "$store" ':Include: itself at x'
run "expanded, 65 levels together" 1 --expand "$store" '<:Include: full at x>'
run "expanded, deeper and deeper" 1 --expand "$store" ':Include: deeper at x'
run "expanded, list refused" 1 --expand "$store" ':Include: refused at x'
run "expanded, unknown name" 1 --expand "$store" ":Include: $(times n 3000)@h"
run "expanded, body refused" 1 --expand "$store" ':Include: a at x ('
run "expanded, long" 0 --expand "$store" "$(times 'Al Neuman at Mad-Host, ' 1400)$(times ':Include: full at x,' 20)"
run "expanded, last record" 0 --expand "$store" ':Include: b at y'
head -c -1 "$store" >"$store.short" && mv "$store.short" "$store"
run "expanded, last record short by a byte" 1 --expand "$store" ':Include: b at y'
: >"$store"
run "expanded, empty store" 1 --expand "$store" ':Include: a at x'

echo "runs under valgrind: $seen"
[ "$faults" -eq 0 ]
