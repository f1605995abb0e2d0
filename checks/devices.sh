#!/bin/sh
# What the built program answers where the outside fails: files that aren't there, can't be
# read or are too long, outputs that are full or closed; and texts that are as long as may be.
here=$(cd "$(dirname "$0")/.." && pwd)
run="$here/gradual"
folder=$(mktemp -d)
trap 'rm -rf "$folder"' EXIT
cd "$folder" || exit 1
failed=0

# check NAME STATUS WANTED-ERR, with the status and the error output of the last run
check() {
    if [ "$status" = "$2" ] && [ "$(cat err)" = "$3" ]; then
        echo "ok: $1"
    else
        failed=1
        echo "WRONG: $1: status $status, '$(head -c 300 err)'; wanted $2, '$3'"
    fi
}

printf 'int main() { printint(7); return 1; }\n' > good.c0
"$run" run good.c0 >out 2>err; status=$?
check "a program that returns" 0 "result 1"
[ "$(cat out)" = 7 ] || { failed=1; echo "WRONG: its output"; }

"$run" run none.c0 >out 2>err; status=$?
check "a file that isn't there" 8 "absent none.c0"

mkdir folder
"$run" run folder >out 2>err; status=$?
check "a folder as the file" 9 "read fault"

head -c 262145 /dev/zero | tr '\0' ' ' > long.c0
"$run" run long.c0 >out 2>err; status=$?
check "a file past the limit" 7 "limit source"

if [ -e /dev/full ]; then
    "$run" run good.c0 >/dev/full 2>err; status=$?
    check "a full device as the output" 10 "write fault"
    "$run" run good.c0 >out 2>/dev/full; status=$?
    : > err
    check "a full device as the error output" 10 ""
fi

# The reader of the pipe ends before the program writes.
{ sleep 0.2; "$run" run good.c0 2>err; echo $? > status.txt; } | true
status=$(cat status.txt)
check "a closed pipe as the output" 10 "write fault"

# The longest sum that fits: each operator is a node of the tree, and a path has at most 100, with
# the function's braces and the statement, so that the 99th operator goes too deep.
{ printf 'int main() { return 1'; head -c 262100 /dev/zero | tr '\0' 'x' | sed 's/xx/+1/g'; printf '; }'; } > sum.c0
"$run" run sum.c0 >out 2>err; status=$?
check "the longest sum that fits" 7 "limit nesting"

sum() { printf 'int main() { return 1'; i=1; while [ "$i" -lt "$1" ]; do printf '+1'; i=$((i + 1)); done; printf '; }\n'; }
sum 99 > most.c0
"$run" run most.c0 >out 2>err; status=$?
check "a sum of 99 terms" 0 "result 99"
sum 100 > more.c0
"$run" run more.c0 >out 2>err; status=$?
check "a sum of 100 terms" 7 "limit nesting"

# Texts of one token that fill the limit.
same() {
    head -c 262144 /dev/zero | tr '\0' "$1" > same.c0
    "$run" run same.c0 >out 2>err; status=$?
    check "a text of one token $1" 4 "$2"
}
for token in '(' '-' '+' '{' '}' ';' '=' '*' '"' 'x' '!' '<' '&' ':' '?' ','; do
    same "$token" "refused 1:1 syntax"
done
same '1' "refused 1:1 bad number"
same '@' "refused 1:1 bad byte"
same '/' "refused 1:1 no main"
{ printf 'int main() { return '; head -c 262000 /dev/zero | tr '\0' '('; } > open.c0
"$run" run open.c0 >out 2>err; status=$?
check "as many parentheses as fit" 7 "limit nesting"
{ printf 'int main() { '; head -c 262000 /dev/zero | tr '\0' '{'; } > blocks.c0
"$run" run blocks.c0 >out 2>err; status=$?
check "as many blocks as fit" 7 "limit nesting"

printf 'int f(int n) { if (n < 1) { return 0; } int r = f(n - 1); return r + 1; }\nint main() { int d = f(1000000); return d; }\n' > deep.c0
"$run" run --steps 10000000 deep.c0 >out 2>err; status=$?
check "a recursion a million deep" 0 "result 1000000"

: > empty.c0
"$run" run empty.c0 >out 2>err; status=$?
check "an empty file" 4 "refused 1:1 no main"

"$run" run --steps=5 good.c0 >out 2>err; status=$?
check "words that are no request" 64 "usage: run, full, check, explain, code, compare or self"

exit $failed
