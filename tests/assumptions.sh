#!/usr/bin/env bash
# Runs the program on each example with no proof trusted: on the interpreter and compiled with the compiler's assumptions checked
# (`rt try`), beside what two compilers built of the proved program, LLVM at -O3 and Rattle's own. Each must print what the first
# of these prints, which tests/program.py holds to expectations written by hand. The program of RFC 822 runs on
# examples/rfc822.txt, that of RFC 733 on the others.
# usage: tests/assumptions.sh [EXAMPLE...]     after 'rt ci', which leaves both builds in crates/NAME/out
set -eu
cd "$(dirname "$0")/.."
for name in rfc733 rfc822; do
    for built in "crates/$name/out/$name" "crates/$name/out/$name.by-rattle"; do
        [ -x "$built" ] || { echo "no $built: run 'rt ci' first"; exit 1; }
    done
done
[ $# -gt 0 ] || set -- examples/*.txt
cases=$(mktemp -d)
trap 'rm -rf "$cases"' EXIT
mkdir "$cases/rfc733" "$cases/rfc822"
for example in "$@"; do
    name=rfc733
    [ "${example##*/}" = rfc822.txt ] && name=rfc822
    case=$cases/$name/${example##*/}
    [ ! -e "$case" ] || { echo "two examples of one name: ${example##*/}"; exit 1; }
    cp "$example" "$case"
    "crates/$name/out/$name" <"$example" >"$case.stdout"
    if ! "crates/$name/out/$name.by-rattle" <"$example" | cmp - "$case.stdout"; then
        echo "$example: the build by Rattle's own compiler prints something else"
        exit 1
    fi
done
seen=0
for name in rfc733 rfc822; do
    wanted=$(find "$cases/$name" -type f ! -name '*.stdout' | wc -l)
    [ "$wanted" -gt 0 ] || continue
    (cd "crates/$name" && rt try --cases "$cases/$name") >"$cases/log" 2>&1 || true
    # both runners ended, each with what the proved program prints
    ran=$(grep -c '^case=.* run=ended status=0 runners=2 output=expected proved=no$' "$cases/log" || true)
    if [ "$ran" -ne "$wanted" ]; then
        echo "$name: $ran of $wanted examples are the same on the interpreter and with the assumptions checked"
        tail -n 40 "$cases/log"
        exit 1
    fi
    seen=$((seen + ran))
done
echo "examples run four ways each: $seen"
[ "$seen" -gt 0 ]
