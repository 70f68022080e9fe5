#!/bin/sh
# make list: writes crates/replay/data/list.txt from the unchanged crate, crates/read/stdin and crates/read/stdout from Rust's parse,
# and README.md, which says how.
set -eu
cd "$(dirname "$0")/../.."
name=list
. tools/common.sh

need_program rustc 'Rust compiler'
need_source
build_crate
rustc --edition 2021 -C opt-level=3 --extern dtoa=target/tools/libdtoa.rlib -o target/tools/list tools/list/main.rs

echo 'list: looking for patterns whose rest equals D, some seconds'
mkdir -p crates/replay/data
target/tools/list "$source/src/lib.rs" crates/replay/data/list.txt crates/read/stdin crates/read/stdout \
    crates/rules/proofs/Examples.antt crates/rules/proofs/Readings.antt >target/tools/list.out
cat target/tools/list.out
{
    cat <<'END'
# How the stored lists were made

`make list` wrote this page, `crates/replay/data/list.txt`, `crates/read/stdin` and `crates/read/stdout`; nothing in them is written
by hand, and the same sources give the same bytes.

## Patterns and their texts

A line of `crates/replay/data/list.txt` is a pattern in 8 (f32) or 16 (f64) hexadecimal digits, a space, and the text that the
unchanged crate dtoa 1.0.11 prints for it. The lines stand in an order that mixes widths and kinds.

END
    sed '/^$/,$d; s/^/    /' target/tools/list.out
    cat <<'END'

Some patterns are of several kinds. A sign that the kind does not settle is drawn, from the pattern itself; so are the random
patterns, from their number (`tools/random.rs`).

*Named in the examples* are the patterns of `crates/rules/proofs/Examples.antt` and `Readings.antt`. Where an example says what a
pattern prints, the program first holds that against the crate.

*Rest equals D* is the case of [RULES.md](../../docs/RULES.md), section 3, at which `<=` and `<` part: at a place of 0 or above
such a rest passes, below it does not. Random f64 patterns do not meet it, so these patterns are constructed
(`tools/list/ties.rs`): the rest equals D where L is a multiple of 10^p * 2^x, or of 2^(x - n) at the place -n; a multiple wanted
as L leaves one or two numbers for the lower boundary, and whether a pattern has one of them is seen at once. What was found goes
through the rules once more (`tools/list/rules.rs`), which must meet the equal rest at the place that was asked for, after no
place that passes. At each exponent f32 was asked for the places 7 to -15, all of them, and f64 for one of 7 to 0 and for one of
-1 to -15, in turn; an exponent has no pattern at most of these places.

## Texts and their patterns

A line of `crates/read/stdin` is a text; `crates/read/stdout` has for each text that is read a line with its patterns of 32 and of 64
bits, as Rust's `parse` reads them, and nothing for one that is refused. So a text that is wrongly taken or wrongly refused moves all
lines behind it. The lines stand in an order that mixes kinds; the last has no line end, and is one that is read.

END
    sed '1,/^$/d; s/^/    /' target/tools/list.out
    cat <<'END'

Some lines are of several kinds. `parse` takes more than we read, so which texts are refused says the check of the form that `make
compare` uses (`tools/compare/form.rs`). Its generators make what is drawn (`tools/compare/texts.rs`, `damage.rs`), from a seed that
stands in `tools/list/lines.rs`. *Close to halfway* is a digit more or less at the last place or behind it, or digits left away; one
in eight of these texts starts from a number and not from the point halfway. A *damaged* text may still have the form.

*Named in the examples* are the texts of `crates/rules/proofs/Readings.antt`. The program first holds what they say, pattern or
refusal, against `parse` and the check of the form.
END
} >tools/list/README.md
echo 'list: wrote crates/replay/data/list.txt, crates/read/stdin, crates/read/stdout and tools/list/README.md'
