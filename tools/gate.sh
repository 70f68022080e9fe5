#!/bin/sh
# make test: `rt ci`, and then the tests that call the archive from C and from Rust, and a sample against the unchanged crate.
#
# rt ci runs as it stands, over the whole checkout. What it says is shown as it comes, but for its last line, `N passed, M failed`,
# which waits for the archive's tests. N is rt ci's; M is rt ci's too, or counts what failed behind it: must-fail edits that cannot
# be applied any more, which rt ci lets pass, and the archive's tests.
# DTOA_LIB=FOLDER tests the archive in that folder, and builds none. rt ci empties each crate's out/, so it may not lie in one.
set -eu
cd "$(dirname "$0")/.."
name=gate
. tools/common.sh

passed=0 failed=1
work=$(mktemp -d)
# The last line, however the gate ends.
trap 'rm -rf "$work"; echo "$passed passed, $failed failed"' EXIT

{
    status=0
    rt ci 2>&1 || status=$?
    echo "$status" >"$work/status"
} | tee "$work/said" | sed -u '$d'

status=$(cat "$work/status")
verdict=$(tail -n 1 "$work/said")
counts=$(printf '%s\n' "$verdict" | sed -n 's/^\([0-9][0-9]*\) passed, \([0-9][0-9]*\) failed$/\1 \2/p')
if [ -z "$counts" ]; then
    printf '%s\n' "$verdict"
    echo 'gate: rt ci broke off.'
    exit 1
fi
passed=${counts% *}
if [ "$status" -ne 0 ] || [ "${counts#* }" -ne 0 ]; then
    if [ "${counts#* }" -ne 0 ]; then failed=${counts#* }; fi
    echo 'gate: rt ci FAILED, so the archive was not tested.'
    exit 1
fi

# Among what it settles: `must-fail edits: N refused, M bad;`
settled=$(grep '^rt: ok;' "$work/said" | tail -n 1)
bad=$(printf '%s\n' "$settled" | sed -n 's/.*, \([0-9][0-9]*\) bad;.*/\1/p')
if [ -z "$settled" ] || [ "${bad:-0}" -ne 0 ]; then
    failed=${bad:-1}
    echo 'gate: rt ci passed, but some must-fail edits are bad, as it says above.'
    exit 1
fi

need_archive
export DTOA_LIB="$library" QUICK=1 REPORT=
failed=0
for test in tests/c/run.sh bindings/rust/test.sh tools/compare/run.sh; do
    if ! "$test"; then
        echo "gate: $test FAILED."
        failed=$((failed + 1))
    fi
done
[ "$failed" -eq 0 ]
