# The commands of the README.
.PHONY: run handover test

# proves the listing program, builds it and lists the sample burn file
run:
	cd crates/listing && rt run < stdin

# the same for one handover from a camera's tables to a burn file
handover:
	cd crates/handover && rt run

# the gate
test:
	.ci/run
