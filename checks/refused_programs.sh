#!/usr/bin/env bash
# Shows that a program which would double or lose a cell of memory, or use one whose region is closed, does not
# compile. Such a program can be none of the edits that the check must refuse, since such an edit must compile.
# And one that hides a cell, which compiles, may not close the region without it.
#
# On a throw-away copy of csp_arena it checks a control program, which must pass, and then the others, each of
# which must be refused for its own reason. It ends with status 0 only where all of that holds.
set -u

top="$(cd "$(dirname "$0")/.." && pwd)" || exit 70
copy="$(mktemp -d)" || exit 70
trap 'rm -rf "$copy"' EXIT

mkdir -p "$copy/crates/trial/src" "$copy/crates/csp_arena" || exit 70
grep '^csp_arena:' "$top/crates.txt" > "$copy/crates.txt" || exit 70
echo 'trial: csp_arena' >> "$copy/crates.txt"
cp "$top/HANDLES" "$copy/" || exit 70
cp -R "$top/crates/csp_arena/src" "$top/crates/csp_arena/specs" "$top/crates/csp_arena/proofs" "$copy/crates/csp_arena/" || exit 70

failed=0

# Writes the trial program, with these lines between the opening of a region and its end, and checks it.
# The status is that of the check, and its words stand in $copy/words.
check() {
    {
        echo '#![tactic(auto)]'
        echo
        echo 'use csp_arena::Region;'
        echo 'use std::alloc::Global;'
        echo
        echo 'pub fn trial(alloc: Global) {'
        echo '    if let Ok((region, mut cells)) = Region::open(alloc, 4, 260) {'
        printf '        %s\n' "$@"
        echo '    }'
        echo '}'
    } > "$copy/crates/trial/src/lib.rt"
    (cd "$copy/crates/trial" && rt check) > "$copy/words" 2>&1
}

# refused WHAT REASON LINE..: the program with these lines is refused, and REASON is among the words of the check.
refused() {
    local what="$1" reason="$2"
    shift 2
    if check "$@"; then
        echo "NOT REFUSED: $what"
        failed=1
    elif grep -qF -- "$reason" "$copy/words"; then
        echo "refused: $what ($reason)"
    else
        echo "REFUSED FOR ANOTHER REASON: $what, and not: $reason"
        tail -n 20 "$copy/words"
        failed=1
    fi
}

if check 'cells[0].bytes_mut()[0] = 1;' 'region.close(cells);'; then
    echo 'proved: the control program, which writes a cell and closes its region'
else
    echo 'THE CONTROL PROGRAM IS REFUSED'
    tail -n 20 "$copy/words"
    failed=1
fi
refused 'a cell cloned' '`clone` exists for `Cell`, but its bounds are not met' 'let _twin = cells[0].clone();' 'region.close(cells);'
refused 'a cell used after its region was closed' 'borrow of moved value: `cells`' 'region.close(cells);' 'let _number = cells[0].number();'
refused 'a cell dropped' 'is not `Drop`, since `Cell` is not' 'let _cell = cells.pop();' 'region.close(cells);'
refused 'a region closed on a list one short' 'what `close` requires' \
    'if let Some(cell) = cells.pop() {' \
    '    let _lost = unsafe { std::mem::ManuallyDrop::new_unchecked(cell) };' \
    '}' \
    'region.close(cells);'
exit "$failed"
