# make run     prove and build the program `quote`, and run it; what is proved is told on standard error
# make test    the gate: prove every crate from nothing, try every must-fail edit, run every program and test
# make fmt     bring every source, spec and proof into the layout

SHELL := bash
.SHELLFLAGS := -o pipefail -c
.PHONY: run test fmt

run:
	@mkdir -p target
	@{ (cd crates/quote && rt run) 2>&1 1>&3 | tee target/run.log | sed -un '/: proved$$/p' >&2; } 3>&1 \
	  || { cat target/run.log >&2; exit 1; }

# A must-fail edit that cannot be applied or read shows nothing: rt passes over it, the gate does not.
test:
	@rt ci 2>&1 | awk '{ print; fflush() } /^rt: ok/ && /, [0-9]+ bad/ { bad = 1 } END { exit bad }'

fmt:
	@for crate in crates/*/; do (cd $$crate && rt fmt) || exit 1; done
