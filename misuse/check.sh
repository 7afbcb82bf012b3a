#!/usr/bin/env bash
# Compiles small misuses of the helm against the repository's crates, in a temporary copy, and holds
# the compiler's refusal of each to the error named here. A use that is right must be proved.
#   misuse/check.sh          (RT names another command in place of rt)
set -u
here=$(cd "$(dirname "$0")" && pwd)
root=$(dirname "$here")
rt=${RT:-rt}
copy=$(mktemp -d)
trap 'rm -rf "$copy"' EXIT

tar -C "$root" --exclude='crates/*/out' -cf - crates crates.txt | tar -C "$copy" -xf -
helm_needs=$(sed -n 's/^helm: *//p' "$copy/crates.txt")
echo "misuse: $helm_needs helm" >> "$copy/crates.txt"
mkdir -p "$copy/crates/misuse/src"
said=$copy/said
cd "$copy/crates/misuse" || exit 2

failed=0

compile() {
    cp "$here/$1.rt.txt" src/lib.rt
    $rt check > "$said" 2>&1
}

must_compile() {
    if compile "$1"; then
        echo "$1: proved, as it must be"
    else
        echo "$1: NOT PROVED"
        tail -n 5 "$said"
        failed=1
    fi
}

must_refuse() {
    if compile "$1"; then
        echo "$1: NOT REFUSED"
        failed=1
    elif grep -q "src/lib.rt:.*error\[$2\]" "$said"; then
        echo "$1: refused, as it must be"
        grep "error\[" "$said" | sed "s|$copy/crates/misuse/||g; s|^|    |"
    else
        echo "$1: refused, but not for $2"
        tail -n 5 "$said"
        failed=1
    fi
}

must_compile finished_voyage
must_refuse dropped_slip linear-value-let-go
must_refuse steered_at_the_harbours_turn mismatched-types
must_refuse finished_twice borrow-e0382
must_refuse copied_slip borrow-e0382
must_refuse made_slip private-field

if [ "$failed" = 0 ]; then
    echo "misuse: all as they must be"
else
    echo "misuse: FAILED"
fi
exit "$failed"
