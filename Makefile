# make run: the main job on an example net. make test: the whole gate.
.PHONY: run test programs second library bench depth soak batch

# The listing of a net: NET is a file with k, the target and the net record.
NET ?= examples/net-a.bin
run: PROGRAMS = listing
run: programs
	@target/bin/listing < $(NET)

# The proved programs, in target/bin. rt proves again what changed, and is quick where nothing did;
# .ci/progress says on standard error which crates were proved. rt run builds a program and runs it, here on nothing.
PROGRAMS = listing marking bench reading classes
programs:
	@mkdir -p target/bin
	@for p in $(PROGRAMS); do (cd crates/$$p && ../../.ci/progress .rt-programs.log run) && cp crates/$$p/out/$$p target/bin/ || exit 1; done

# The second mapper, for comparison.
second:
	cd tests && cargo build --release --offline --quiet

# The library for C and Rust: target/staticlib/libkamfelu.a, to be used with include/kamfelu.h or the crate in rust/.
library:
	@mkdir -p target/staticlib
	@cd crates/kamfelu_c && ../../.ci/progress .rt-library.log lib
	@cp crates/kamfelu_c/out/libkamfelu_c.a target/staticlib/libkamfelu.a

# Times of map, plain and forward, of mark and of the second mapper on the same nets, and ABC's periods where it is installed; then of align and a plain loop, of mark on records with large cones, and of the bench program and the change-over.
bench: library programs
	cd tests && cargo run --profile timing --offline --quiet -p library --bin timing
	cd tests && cargo run --profile timing --offline --quiet -p library --bin bench_align
	cd tests && cargo run --profile timing --offline --quiet -p library --bin bench_leaves
	cd tests && cargo run --profile timing --offline --quiet -p library --bin bench_steps

# The deepest stack use seen of a call of map, plain or forward, or of the change-over.
depth: library
	cd tests && cargo run --release --offline --quiet -p library --bin depth

# Map, plain and forward, the change-over, mark and the programs listing and bench against the second mapper for MINUTES minutes, with fresh nets.
MINUTES ?= 20
soak: library programs
	cd tests && cargo run --release --offline --quiet -p library --bin soak -- $(MINUTES) $(SEED)

# The stored inputs of the reader's gate and of the bench program, crates/reading/stdin and crates/bench/stdin, and the second mapper's answers, stdout.
batch: library
	cd tests && cargo run --release --offline --quiet -p library --bin batch

# The proofs, the layout and the edits by rt ci, then the comparisons; rt ci's verdict is printed last, and only if all else passed.
# An edit that does not fit counts for nothing in rt ci, so its count must not be there.
test:
	@.ci/progress .rt-ci.log ci || { tail -n 60 .rt-ci.log; exit 1; }
	@! grep -E '^rt: ok.*, [1-9][0-9]* bad' .rt-ci.log || exit 1
	$(MAKE) --no-print-directory library programs
	cd tests && cargo test --release --offline --quiet --workspace
	cd rust && cargo test --release --offline --quiet
	@cat .rt-ci.log
