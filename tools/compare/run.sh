#!/bin/sh
# make compare: builds the unchanged crate and the comparison, and runs it.
# QUICK=1 takes a sample; SEED=NUMBER sets the seed; REPORT=1 writes docs/COMPARISON.md from the run.
set -eu
cd "$(dirname "$0")/../.."
name=compare
. tools/common.sh

if quick && [ -n "${REPORT:-}" ]; then
    echo 'compare: REPORT wants the whole comparison, without QUICK.' >&2
    exit 1
fi
need_program rustc 'Rust compiler'
need_source
need_archive
build_crate
rustc --edition 2021 -C opt-level=3 --extern dtoa=target/tools/libdtoa.rlib -L "native=$library" -l static=dtoa_c -o target/tools/compare tools/compare/main.rs

set --
if quick; then set -- "$@" --quick; fi
if [ -n "${SEED:-}" ]; then set -- "$@" --seed "$SEED"; fi
if [ -z "${REPORT:-}" ]; then exec target/tools/compare "$@"; fi

status=0
{
    about_this_run
    target/tools/compare "$@" || status=$?
} >target/tools/compare.out
cat target/tools/compare.out
{
    cat <<'END'
# Comparison with the unchanged crate, and of reading with Rust's

`make compare REPORT=1` wrote this page; nothing on it is written by hand.

Every call goes through the archive `libdtoa_c.a`, as a C program would make it. What the crate dtoa 1.0.11 prints for the same
pattern is the text that is wanted; where a call is to be refused, [RULES.md](RULES.md), section 6, says with which number.
Compared are the number, the length, the text, and the bytes that are to stay: those behind the text, the whole buffer after a
refusal, and a fence on either side of it. In the long runs the crate's `format` is asked once for both of our entries, since at a
finite pattern it is its `format_finite`; at the patterns of every exponent each entry is held against the crate's own. A row is
held against the crate's `format`, called once for each of its patterns, with one space between two texts; after each of its calls
every byte of the buffer and of the fences is looked at.

Reading is to give back the pattern of every text that is printed, and `7fc00000` or `7ff8000000000000` for a NaN's. For other texts
what Rust's own `parse` reads is wanted; which texts are refused, and with which number, says a check of the form that is written
for this comparison alone (`tools/compare/form.rs`), since `parse` takes more. A text stands between digits, so that a call which
reads beyond an end of it answers otherwise. A damaged text is a good one with a byte changed, put in, doubled or left out, with an
end cut off, with two bytes exchanged, or with zeros put in until it may be too long.

[DIFFERENCES.md](DIFFERENCES.md) has what differs by intent.

END
    sed 's/^/    /' target/tools/compare.out
} >docs/COMPARISON.md
echo 'compare: wrote docs/COMPARISON.md'
exit "$status"
