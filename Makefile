# make demo: proves every crate, then runs dyemap on the worked log of document 01.
# make test: the gate.
# make bench: times the calls against a plain Rust version and a hash map.
.PHONY: demo test bench

demo:
	rt all check
	.ci/program
	@echo
	@target/bin/dyemap < crates/dyemap/stdin

test:
	.ci/run

bench:
	.ci/library
	cd rust && PATH="$$PATH:$$HOME/.cargo/bin" cargo run --release --offline --locked --package bench
