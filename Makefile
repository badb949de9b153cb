# Two commands do everything on a machine that has the Rattle kit: `make demo` and `make test`.
.PHONY: demo test outside

# Proves what the programs need, builds them and runs them on a sample burst, a row, and bursts that take sections, are closed
# and read out, step by step.
demo:
	@tools/demo.sh

# The gate.
test:
	@.ci/run

# Holds the stored test files, what sectionwrite writes and what rowmend makes of rows against programs of others, which it
# installs from Debian's packages, and what bursttake and burstlist make of bursts against a second receiver.
outside:
	@tools/check_outside.sh
