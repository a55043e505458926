# `make` proves and builds `rehearse` and what it stands on, and rehearses the first example.
# `make inspect` does the same for `inspect`, and runs it on the capture that ships with the repository.
# `make test` passes the gate: every proof from nothing, the must-fail edits, the programs, the tests.
# `make compare` and `make speed` hold it against another implementation.
.PHONY: rehearse inspect test compare speed

# A program is built by running it: here without its files, so it ends at once.
rehearse:
	@cd crates/rehearse && rm -f out/rehearse && rt check && { rt run >/dev/null 2>&1 || true; }
	@cd examples/first && $(CURDIR)/crates/rehearse/out/rehearse

inspect:
	@cd crates/inspect && rt run < stdin

test:
	@.ci/run

# The other implementation against this one, and how fast both are (`bench/README.md`); wants `cargo`.
compare:
	@cd crates/capi && rt lib
	@cd bench && cargo run --release --quiet --bin compare

speed:
	@cd crates/capi && rt lib
	@cd bench && cargo run --release --quiet --bin speed
