#!/bin/sh
# Tries the must-fail edits of crates that are too large to have them in the gate: each edits/CRATE/NAME.edit turns the
# meaning of a public function, and the prover must refuse it at a clause. Whoever changes a crate runs this for it.
#
#   checks/slow/edits.sh            all of them
#   checks/slow/edits.sh CRATE..    those of these crates
#
# It works on a copy of the repository and begins with what checks on this machine kept. One line for each edit, and
# last 'N refused, M not'.
here=$(cd "$(dirname "$0")/../.." && pwd)
command -v rt >/dev/null || { echo "edits: no rt here, skipped"; exit 0; }
copy=$(mktemp -d)
trap 'rm -rf "$copy"' EXIT
cd "$here" || exit 1
git ls-files -co --exclude-standard -- crates crates.txt HANDLES edits | tar -cf - -T - | tar -xf - -C "$copy"
cd "$copy" || exit 1
[ $# -gt 0 ] || set -- $(ls edits)
refused=0 others=0
for crate in "$@"; do
    if [ ! -d "edits/$crate" ]; then
        echo "$crate: no edits"
        continue
    fi
    # Those that the gate tries itself aren't tried again.
    rm -rf "crates/$crate/must-fail"
    cp -r "edits/$crate" "crates/$crate/must-fail"
    rt must-fail "$crate" >"said.$crate" 2>&1 </dev/null
    for edit in "edits/$crate"/*.edit; do
        name=$(basename "$edit")
        line=$(grep -F "must-fail $crate/$name: " "said.$crate" | tail -n 1)
        case "$line" in
            *"(only because a proof file names"*) others=$((others + 1)); echo "NOT AT A CLAUSE $crate/$name: $line" ;;
            *": refused, as it must be"*) refused=$((refused + 1)); echo "refused $crate/$name: ${line#*as it must be: }" | cut -c1-160 ;;
            *) others=$((others + 1)); echo "NOT REFUSED $crate/$name: ${line:-$(tail -n 1 "said.$crate")}" ;;
        esac
    done
done
echo "$refused refused, $others not"
[ "$others" = 0 ]
