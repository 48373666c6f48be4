MAKEFLAGS += --no-print-directory
.PHONY: run test archives bench fmt front front-test

# Proves and builds the program icheck and runs it on document 01's run, with the output that is due beside its own; then the archives, and the host program on
# sample texts.
run: archives
	cd crates/icheck && mkdir -p out && rt run < stdin > out/stdout
	diff --side-by-side --width=90 crates/icheck/out/stdout crates/icheck/stdout
	tools/cargo run --release --offline --locked --quiet

# The gate: rt ci, with layout, proofs, programs and edits that must fail; names in docs/CLAUSES.md, planted faults, archives, C
# program, host tests, icheck on many inputs. Its last line is the count.
test:
	@tools/test

# Builds the command zograxt over the proved archive (docs/FRONT.md); then tests it.
front: crates/doors/out/libdoors.a
	$(MAKE) -C front

front-test: front
	@tools/front_tests

crates/doors/out/libdoors.a:
	cd crates/doors && rt lib

# Proves the crates that C and Rust link, and writes the archive of each, crates/NAME/out/libNAME.a.
archives:
	cd crates/doors && rt lib
	cd crates/test_doors && rt lib
	cd crates/store_doors && rt lib

# Measures the path checker and the record call beside the original Rust, and full stores beside plain Rust (docs/PERFORMANCE.md). No test runs it.
bench: archives
	tools/cargo run --release --offline --locked --quiet --bin bench_checker
	tools/cargo run --release --offline --locked --quiet --bin bench_names
	tools/cargo run --release --offline --locked --quiet --bin bench_stores
	tools/cargo run --release --offline --locked --quiet --bin bench_session

# Puts the Rattle files and the host's Rust in their layout.
fmt:
	for crate in crates/*/; do (cd "$$crate" && rt fmt) || exit 1; done
	tools/cargo fmt
