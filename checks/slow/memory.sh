#!/bin/sh
# What the built programs answer where memory runs out: for each number N up to MOST, the allocation of that number
# fails alone, and then that one and all after it. Each answer has to be the usual one (the same output, line and
# status), or the status 12 with a front of the output and the one line `memory` on the error output.
#
#   PROGRAM=PATH       the program `gradual_cli` to try; left out: the proved one, which is built where there is none
#   SAT_PROGRAM=PATH   the program `sat_cli` likewise
#   MOST=N             the largest number, 1000 where it is left out
#
# It prints a line for each case: how many runs were usual, how many ended for want of memory, and how many were wrong.
here=$(cd "$(dirname "$0")/../.." && pwd)
most=${MOST:-1000}
if ! command -v gcc >/dev/null; then
    echo "skipped: no gcc, which compiles the library that lets allocations fail"
    exit 0
fi
folder=$(mktemp -d)
trap 'rm -rf "$folder"' EXIT
if ! gcc -O1 -shared -fPIC -o "$folder/fail_alloc.so" "$here/checks/slow/fail_alloc.c"; then
    echo "WRONG: the library that lets allocations fail was not compiled"
    exit 1
fi

# The program of a crate, which is proved and built where there is none.
built() {
    [ -x "$here/crates/$1/out/$1" ] || (cd "$here/crates/$1" && rt run) >&2 </dev/null || exit 1
    echo "$here/crates/$1/out/$1"
}
program=${PROGRAM:-$(built gradual_cli)} || exit 1
sat_program=${SAT_PROGRAM:-$(built sat_cli)} || exit 1
cd "$folder" || exit 1
failed=0

# is_front FILE OF: whether a file is a front of another
is_front() {
    head -c "$(wc -c < "$1")" "$2" | cmp -s - "$1"
}

# ran: whether the last run's answer was the usual one, or that of a want of memory, or wrong
ran() {
    if [ "$status" = "$usual_status" ] && cmp -s out usual_out && cmp -s err usual_err && cmp -s made usual_made; then
        usual=$((usual + 1))
    elif [ "$status" = 12 ] && [ "$(cat err)" = memory ] && is_front out usual_out && is_front made usual_made; then
        ended=$((ended + 1))
    else
        wrong=$((wrong + 1))
        [ "$wrong" -gt 3 ] || echo "WRONG: $name: allocation $number $mode: status $status, error output '$(head -c 200 err)'"
    fi
}

# try NAME WORD..: runs a program's words with each allocation failing. A word `made` names a file that it writes.
try() {
    name=$1
    shift
    for mode in one all; do
        usual=0
        ended=0
        wrong=0
        : > made
        "$@" >usual_out 2>usual_err
        usual_status=$?
        cp made usual_made
        number=1
        while [ "$number" -le "$most" ]; do
            : > made
            if [ "$mode" = all ]; then
                FAIL_ALLOC=$number FAIL_ALL=1 LD_PRELOAD="$folder/fail_alloc.so" "$@" >out 2>err
            else
                FAIL_ALLOC=$number LD_PRELOAD="$folder/fail_alloc.so" "$@" >out 2>err
            fi
            status=$?
            ran
            number=$((number + 1))
        done
        echo "$name, $mode: $usual usual, $ended without memory, $wrong WRONG (status $usual_status)"
        [ "$wrong" = 0 ] || failed=1
        [ "$ended" -gt 0 ] || { failed=1; echo "WRONG: $name: no allocation failed"; }
    done
}

cat > run.c0 <<'TEXT'
int triangle(int n)
//@requires 0 <= n;
//@ensures 0 <= \result;
{
  int sum = 0;
  int i = 0;
  while (i < n)
  //@loop_invariant 0 <= i && i <= n;
  {
    i = i + 1;
    sum = sum + i;
  }
  return sum;
}

int down(int n) {
  if (n < 1) { return 0; }
  int r = down(n - 1);
  return r + 1;
}

int main() {
  int k = 0;
  while (k < 40) {
    int t = triangle(k);
    int d = down(k);
    printint(t);
    printint(d);
    k = k + 1;
  }
  //@assert k == 40;
  return k;
}
TEXT
try "a run with calls, loops and output" "$program" run --steps 100000 run.c0

printf 'int twice(int n) { int m = n + n; return m; }\nint main() {\n  int a = twice(2);\n  while (a < 9) { a = a + twiec; }\n  return a;\n}\n' > refused.c0
try "a text that is refused" "$program" run refused.c0

# Five pigeons in four holes: no assignment satisfies it, as the proof shows.
{
    echo "p cnf 20 45"
    for pigeon in 0 1 2 3 4; do
        echo "$((pigeon * 4 + 1)) $((pigeon * 4 + 2)) $((pigeon * 4 + 3)) $((pigeon * 4 + 4)) 0"
        other=$((pigeon + 1))
        while [ "$other" -le 4 ]; do
            for hole in 1 2 3 4; do
                echo "-$((pigeon * 4 + hole)) -$((other * 4 + hole)) 0"
            done
            other=$((other + 1))
        done
    done
} > holes.cnf
try "a formula without an assignment, and its proof" "$sat_program" holes.cnf made

printf 'p cnf 6 7\n1 2 0\n-1 3 0\n-2 4 0\n-3 -4 5 0\n-5 6 0\n-6 -1 2 0\n3 4 5 0\n' > holds.cnf
try "a formula with an assignment" "$sat_program" holds.cnf

exit $failed
