# make run: proves and builds what typed lists need, then shows the report for the sample pupil's list.
# make programs: the same for all programs behind ./bench.
# make test: every proof, every must-fail edit, every program, and the comparison with the reference; the gate's own line comes last.
# make mutants: shows that the comparison notices single mistakes. make speed: ratios against plain C.
.PHONY: run programs test mutants speed

run:
	@tools/built typed
	@tools/sample

programs:
	@tools/built typed assemble lister list to_card from_card rescue_list

test:
	@tools/test

# The programs must have been built, by make test.
mutants:
	@tools/compared tests/reference/mutants.sh

speed:
	@speed/run
