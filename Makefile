.PHONY: run test soak bench library install

# Proves and builds the program passage and runs document 01's example.
run:
	cd crates/passage_run && rt run <stdin

# The gate.
test:
	bash .ci/run

# The differential runs at ten times their length and at full size, ten million calls with anything, and all
# wrong answers.
soak:
	tests/differential/run long
	tests/differential/run full
	tests/fuzz/run 10
	tests/fuzz/run stand-ins
	tests/wrong_answers/run hash_parts
	tests/wrong_answers/run records
	tests/wrong_answers/run index
	tests/wrong_answers/run sets
	tests/wrong_answers/run files
	tests/wrong_answers/run book
	tests/wrong_answers/run passage_lines

# Speed beside the Rust, as ratios; what a poor hash costs; files beside a plain copy.
bench:
	bench/run
	bench/hashes
	bench/files

# The library for C and Rust. What is there is handed out only while its proof holds, which is asked each time.
library:
	bindings/library

# Library, headers and the program passage below PREFIX; DESTDIR stages them elsewhere. rt builds a program when it runs it.
PREFIX ?= /usr/local

install: library
	cd crates/passage_run && rt run <stdin >/dev/null
	install -d $(DESTDIR)$(PREFIX)/lib $(DESTDIR)$(PREFIX)/include $(DESTDIR)$(PREFIX)/bin
	install -m 644 target/staticlib/libcapi.a $(DESTDIR)$(PREFIX)/lib/
	install -m 644 bindings/segment_cache.h bindings/segment_cache_words.h $(DESTDIR)$(PREFIX)/include/
	install -m 755 crates/passage_run/out/passage_run $(DESTDIR)$(PREFIX)/bin/passage
