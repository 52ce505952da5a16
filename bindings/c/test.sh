#!/bin/sh
# test.sh OUT: runs the programs of the folder OUT, and compares what they write. `make test` calls it.
set -eu
out=$1
failures=0
# Each stored case up to those that are written as replay alone reads them, and what it states.
sed '/^# Cases of replay alone/,$d' ../../crates/replay/stdin >"$out/cases"
sed '/^#/d; /^$/d; s/.* => //; s/^error.*/error/' "$out/cases" >"$out/expected"

# run PROGRAM WIDTH INPUT: what the program writes, and its status after a dot. The input is a format of printf.
run() {
    status=0
    printf "$3" | "$out/$1" $2 2>&1 || status=$?
    printf '.%s' $status
}

# expect PROGRAM WIDTH INPUT OUTPUT STATUS: both texts are formats of printf.
expect() {
    got=$(run "$1" "$2" "$3")
    expected=$(printf "$4.$5")
    [ "$got" = "$expected" ] && return
    printf '%s %s: expected\n%s\nbut it answers\n%s\n' "$1" "$2" "$expected" "$got"
    failures=$((failures + 1))
}

for kind in '' _cpp; do
    "$out/test$kind" || failures=$((failures + 1))
    example=example$kind
    expect $example '' '' '' 0
    expect $example 27 '(define  (square x)\n (* x x))' '(define (square x) (* x x))\n' 0
    expect $example 26 '(define (square x) (* x x))' '(define\n  (square x)\n  (* x x))\n' 0
    # The last line of the list has 16 columns, and one byte more.
    expect $example 16 '(let ((name "Ada") (née 1)) (print naïve)) x' \
        '(let\n  ((name "Ada")\n    (née 1))\n  (print naïve))\nx\n' 0
    expect $example '' '(say "one\ntwo\\"" () x)' '(say\n  "one\ntwo\\""\n  ()\n  x)\n' 0
    expect $example '' 'a\n)' 'example: line 2: this `)` closes no list\n' 1
    expect $example '' '(a\n"b\n' 'example: line 2: the string that begins here has no end\n' 1
    expect $example '' '((a)\n' 'example: line 2: a list has no end\n' 1
    expect $example '' '(\377)' 'example: a text is not UTF-8\n' 1
    for words in 1x -1 '1 2' 18446744073709551616; do
        expect $example "$words" '' 'usage: example [WIDTH] <FILE\n' 2
    done
    "$out/replay$kind" <"$out/cases" >"$out/answers"
    cmp "$out/expected" "$out/answers" || failures=$((failures + 1))
done
[ $failures -eq 0 ] || exit 1
echo "test.sh: all well"
