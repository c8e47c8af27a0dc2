# make            proves map_lines and lists the fragments of a map with it (MAP=file; map A by default)
# make test       the gate: the names in the documents, then layout, every proof, every must-fail edit and every program
# make library    the static library for C and Rust
# make compare    many generated maps through the library, map_lines and the second program (SEEDS=n for more),
#                 and that the stored cases are current
# make memcheck   the same on fewer maps, under valgrind
# make bench      the library's times against the second program's, and its sweep of free space against two programs written for that
#                 alone, as ratios (BEFORE=file.so: against an earlier build's too)
# make figures    measures everything and writes docs/FIGURES.md (half an hour)
# make stack      the stack that each call needs, against what the header says
# make rust       the tests of the Rust binding
# make c-example  compiles README's C example and runs it on maps A and B
# make disc       map B and an image for it in target/disc, for README's copy and wipe (DISC=folder)
# make cases      the stored cases of crates vectors and map_lines_cases, written again by the second program
MAP ?= maps/a.map
SEEDS ?= 40000
DISC ?= target/disc

.PHONY: all test library compare memcheck bench figures stack rust c-example disc cases

all:
	cd crates/map_lines && rt run < $(abspath $(MAP))

test:
	.ci/run

library:
	cd crates/shoalswift_c && rt lib
	mkdir -p target/staticlib
	cp crates/shoalswift_c/out/libshoalswift_c.a target/staticlib/libshoalswift.a

compare: library
	cd crates/map_lines && rt run < stdin > /dev/null
	cd second && cargo build --release --offline -p reference -p compare
	SEEDS=$(SEEDS) MAP_LINES=crates/map_lines/out/map_lines second/target/release/compare
	mkdir -p second/target/cases second/target/texts
	second/target/release/cases second/target/cases
	cmp second/target/cases/stdin crates/vectors/stdin
	cmp second/target/cases/stdout crates/vectors/stdout
	second/target/release/texts second/target/texts
	cmp second/target/texts/stdin crates/map_lines_cases/stdin
	cmp second/target/texts/stdout crates/map_lines_cases/stdout

memcheck: library
	cd second && cargo build --release --offline -p compare
	SEEDS=300 valgrind -q --error-exitcode=1 second/target/release/compare

bench: library
	cd second && cargo build --release --offline -p bench
	second/target/release/bench$(if $(BEFORE), --before "$(BEFORE)")

figures:
	docs/figures.sh

stack: library
	cd second && cargo build --release --offline -p stack
	second/target/release/stack

rust: library
	cd rust && cargo test --release --offline

c-example: library
	cc -std=c11 -Wall -Wextra -Werror include/example.c target/staticlib/libshoalswift.a -o target/example
	test "$$(target/example < maps/b.map)" = "object 5: 20480 bytes from 12288"
	test "$$(target/example < maps/a.map)" = "refusal 10, zone 0"

# Every byte of the image is known, so that one that should have stayed is noticed.
disc:
	mkdir -p $(DISC)
	rm -f $(DISC)/file
	cp maps/b.map $(DISC)/b.map
	yes "the old owner's file" | head -c 1572864 > $(DISC)/b.image

cases:
	cd second && cargo build --release --offline -p reference
	second/target/release/cases crates/vectors
	second/target/release/texts crates/map_lines_cases
