# `make run` lists the shipped example; `make test` is the whole gate.
.PHONY: run test c programs

run:
	@tools/build.sh list
	@echo 'Proved and built: target/bin/list. Its listing of examples/meal.bin:'
	@target/bin/list < examples/meal.bin

# `rt ci` comes last: its last line is the verdict.
test: c programs
	@tools/ci.sh

# The C caller over the static library.
c:
	@tools/c_test.sh

# What the programs write and how they end.
programs:
	@tools/programs_test.sh
