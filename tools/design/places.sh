#!/bin/sh
# Lists the places of docs/DESIGN-PASS.md in the sources of a folder `crates`: tools/design/places.sh [FOLDER]
tools=$(cd "$(dirname "$0")" && pwd)
cd "${1:-crates}" || exit 1
echo '== 1a own enums'
grep -nE '^(pub )?enum ' */src/*.rt
echo '== 1b functions that answer a number for none, by their comments'
grep -nE '^ *//.*(\b0 of |16 of any|else 10,000|else 100,000,000|; 0 where|and 0 where|more than 9 of|so 0 says|bounds nothing|or a line end where|100,000,000 if)' */src/*.rt
echo '== 1c numbers for kinds and refusals'
grep -nE '^ +pub (number|length|pattern): u(32|64),' dtoa_c/src/*.rt
echo '== 2 names of one crate that differ in 32 and 64, and names that stand in two files'
python3 "$tools/twins.py" .
echo '== 3 loops by hand'
grep -nE '^ *while ' */src/*.rt
echo '== 4 done by hand'
grep -nE '^ *(pub )?fn (magnitude|put_point_zero|three|over|five_power|compare|is_digit|is_word|half_at|word_at|ten_to|pow10|ten|even_of|behind_sign|narrowed|answered|answered_row|answered32|answered64|hex_digit|put_hex|put|next_number|expected)\(' */src/*.rt
grep -nE '^ *(pub )?enum Order' */src/*.rt
echo '== 5 facts in three or more contracts of a crate, and parameters that three or more functions of a crate take together'
python3 "$tools/facts.py" .
echo '== 6 a buffer with a length beside'
grep -nE '(buf|line|out|a): &mut \[[^]]*\], *len: usize|line: &\[u8\], len: usize|^ +len: usize,' */src/*.rt
echo '== 7 switches on a kind'
grep -nE '\b(wide|infinite): bool' */src/*.rt
echo '== 8 answers'
ls */proofs/*/Answers.antt */proofs/*/*/Answers.antt */proofs/*/*/*/Answers.antt 2>/dev/null | wc -l
cat */proofs/*/Answers.antt */proofs/*/*/Answers.antt */proofs/*/*/*/Answers.antt 2>/dev/null | grep -c '^pub '
