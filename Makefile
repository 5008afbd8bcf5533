# One word each; they only wrap rt.
.PHONY: program run test compare gate

# proves and builds the program, as crates/register/out/register
program:
	cd crates/register && rt run > /dev/null

# runs the program on the example
run: program
	crates/register/out/register < examples/league.txt

# proves everything that changed, runs the programs and compares what they print
test:
	rt all test

# the program against an independent reading of the format
compare: program
	python3 compare/check.py crates/register/out/register

# the gate: proofs, edits that must be refused, programs and their output
gate:
	.ci/run
