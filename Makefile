# make run        prove and build the programs print and read, and show patterns, their texts, and what these are read as
# make test       the gate: `rt ci`, the layout of every file, all proofs, must-fail edits and programs, and then the archive called
#                 from C and Rust and held against the crate and Rust's parse on a sample
# make test-c     call the archive from C, through include/dtoa.h
# make test-rust  call the archive from Rust, through bindings/rust
# make compare    call the archive and the unchanged crate with the same patterns: all of f32, 500 million random ones of f64,
#                 50 million of its subnormals, and 100,000 rows of f32; read all their texts back but the rows', and 200 million
#                 others beside Rust's parse (QUICK=1: a sample; SEED=NUMBER: the random ones; REPORT=1: write docs/COMPARISON.md)
# make bench      time our calls beside the crate's, and beside ryu's, fmt's and Dragonbox's where Debian's packages are installed;
#                 and our calls that read beside Rust's parse, and fast_float's where it is installed
#                 (REPORT=1: write docs/PERFORMANCE.md and its plots; BEFORE=FOLDER: time the earlier libdtoa_c.a in that folder
#                 too, and report CHANGE=TEXT, before and after)
# make list       write the stored lists: that of the program replay, crates/replay/data/list.txt, from the unchanged crate, and the
#                 texts of the program read, crates/read/stdin, with what Rust's parse reads in them, crates/read/stdout
#
# DTOA_LIB=FOLDER  has libdtoa_c.a; where it is not given, rt proves and makes crates/dtoa_c/out/libdtoa_c.a
# DTOA_SRC=FOLDER  has the unchanged crate dtoa 1.0.11, its src/lib.rs; where it is not given, ../shared/docs/src

.PHONY: run test test-c test-rust compare bench list

export DTOA_LIB DTOA_SRC QUICK SEED REPORT BEFORE CHANGE

run:
	@mkdir -p target
	cd crates/print && rt run < ../../examples/patterns.txt > ../../target/texts.txt
	cd crates/read && rt run < ../../target/texts.txt > ../../target/read.txt
	@echo
	@echo 'Patterns, their texts as the proved program prints them, and the patterns of 32 and of 64 bits that these are read as:'
	@paste -d ' ' examples/patterns.txt target/texts.txt target/read.txt | \
	    awk '{ printf "%-16s  %-24s  %s %s\n", $$1, $$2, $$3, $$4 }'

test:
	@tools/gate.sh

test-c:
	@tests/c/run.sh

test-rust:
	@bindings/rust/test.sh

compare:
	@tools/compare/run.sh

bench:
	@tools/bench/run.sh

list:
	@tools/list/run.sh
