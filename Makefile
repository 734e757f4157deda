.PHONY: goals play program test bench

define GOALS
make play SCRIPT=FILE    plays a script and prints its report; of several files, SCRIPT="A B", each under its name
make program             proves and builds the program, once; from then on make play plays at once
make test                the gate: every proof, must-fail edit, test and program, and the examples; over an hour at first
make bench               what an event costs as the journal grows, a piece of a region map, and an event of the log
endef
export GOALS

goals:
	@echo "$$GOALS"

# One file, whose name may have spaces; or several, as words of the shell.
SCRIPT ?= examples/first-write.jsonl
export SCRIPT
play:
	@if [ -e "$$SCRIPT" ]; then tools/play "$$SCRIPT"; else tools/play $(SCRIPT); fi

program:
	@tools/built table_play play

test:
	@.ci/run

bench:
	@tools/bench
	@tools/bench-regions
	@tools/bench-raft
