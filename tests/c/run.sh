#!/bin/sh
# make test-c: compiles calls.c, rows.c and reads.c against include/dtoa.h and the archive, and runs them.
set -eu
cd "$(dirname "$0")/../.."
name=test-c
. tools/common.sh

need_program "${CC:=cc}" 'C compiler'
need_archive
mkdir -p target/tools
for program in calls rows reads; do
    "$CC" -std=c11 -O2 -Wall -Wextra -Werror -Iinclude -o "target/tools/$program" \
        "tests/c/$program.c" tests/c/lent.c "$library/libdtoa_c.a"
    "target/tools/$program"
done
