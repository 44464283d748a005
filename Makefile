# `make run` plans and converts the example scan, `make plan SHEETS=FILE` lists the plan of three sheets, `make test` is the gate, whose last
# line tells how it went.
.PHONY: run plan test programs
SHEETS ?= examples/scan.sheets
CONVERTED = target/scan.converted

run: programs
	@echo "The plan of examples/scan.sheets:"
	@target/bin/nakvisk plan examples/scan.sheets
	@echo
	@echo "The conversion of examples/scan.points:"
	@target/bin/nakvisk convert examples/scan.sheets examples/scan.points $(CONVERTED)
	@echo
	@echo "The first points of $(CONVERTED):"
	@examples/show $(CONVERTED)

plan: programs
	@target/bin/nakvisk plan $(SHEETS)

test:
	bash .ci/run

# Proves and builds the command and scanplan; quiet unless that fails. It takes some minutes the first time.
programs:
	@mkdir -p target
	@crates/scanplan/build
	@crates/command/build
