#!/bin/sh
# Runs each program of examples/, and of examples/faults (one for each way that a text can be refused), and
# compares what it prints and its status with expected.txt beside it, whose values were worked out by hand.
# Texts past a limit that would be long to write out are made here.
here=$(cd "$(dirname "$0")/.." && pwd)
made=$(mktemp -d)
trap 'rm -rf "$made"' EXIT
failed=0
passed=0

# Each program that the list on the standard input names, in this folder.
compare() {
    cd "$1" || exit 1
    while IFS='|' read -r name out err status; do
        case "$name" in ''|'#'*) continue ;; esac
        name=$(echo $name) out=$(echo $out) err=$(echo $err) status=$(echo $status)
        got_out=$("$here/gradual" run "$name" 2>"$made/err")
        got_status=$?
        got_err=$(cat "$made/err")
        if [ "$got_out" = "$out" ] && [ "$got_err" = "$err" ] && [ "$got_status" = "$status" ]; then
            passed=$((passed + 1))
        else
            failed=$((failed + 1))
            echo "$1/$name: got '$got_out', '$got_err', $got_status; wanted '$out', '$err', $status"
        fi
    done
}

# A text of 513 parts, each with its number in the place of `&`, and of what stands behind them.
parts() {
    seq 513 | sed "s|.*|$1|"
    echo "$2"
}

# A `return` of 1,023 ones in 31 pairs of parentheses, and of so many ones more.
sum() {
    awk -v more="$1" 'BEGIN {
        ones = "(1"; for (i = 1; i < 33; i++) ones = ones " + 1"; ones = ones ")"
        sum = ones; for (i = 1; i < 31; i++) sum = sum "\n  + " ones
        for (i = 0; i < more; i++) sum = sum " + 1"
        print "int main() {\n  return " sum ";\n}" }'
}

main='int main() { return 0; }'
parts 'struct s& { int v; };' "$main" >"$made/limit_structs.c0"
parts '//@predicate p&() = true;' "$main" >"$made/limit_predicates.c0"
parts 'int f&() { return 0; }' "$main" >"$made/limit_functions.c0"
sum 3 >"$made/limit_temporaries.c0"
sum 2 >"$made/most_temporaries.c0"

compare "$here/examples" <"$here/examples/expected.txt"
compare "$here/examples/faults" <"$here/examples/faults/expected.txt"
compare "$made" <<END
limit_structs.c0 | | limit structs | 7
limit_predicates.c0 | | limit predicates | 7
limit_functions.c0 | | limit functions | 7
limit_temporaries.c0 | | limit temporaries main | 7
most_temporaries.c0 | | result 1025 | 0
END
echo "examples: $passed passed, $failed failed"
[ "$failed" = 0 ]
