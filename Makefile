# run           read a text from standard input, write its report or its refusal
# test          the gate: layout, every proof, must-fail edits, programs, then, of what is proved, the small runs beside Rust, the host in C, the program, PostgreSQL
# test-postgres sessions opened by the gateway in C with a PostgreSQL 15 that is started for it: seconds
# staticlib     build/libnyimbrak.a, for C to link with include/nyimbrak.h
# differential  the large runs beside Rust: some minutes at most
# edits         the must-fail edits alone
# slips         slips made on purpose in a copy of the reader, each to be noticed by the program replay: half an hour
# bench         instructions for one text beside the Rust's, into docs/PERFORMANCE.md
# clean         remove what was built
.PHONY: run test beside hosts edits test-postgres staticlib differential slips bench clean kit

run: kit
	@scripts/run.sh

# rt ci goes first. The archives are built behind it, over checks of their own. rt ci's last line is said once more at the end.
test: kit
	scripts/ci.sh
	scripts/archive.sh all
	$(MAKE) --no-print-directory -j 2 --output-sync=target beside hosts
	@tail -n 1 build/ci.log

# what is run of what is proved: two at a time
beside:
	differential/run.sh small

hosts:
	scripts/host.sh
	scripts/program.sh
	scripts/postgres.sh gate

test-postgres: kit
	scripts/postgres.sh test

staticlib: kit
	scripts/archive.sh

differential: kit
	differential/run.sh large

edits: kit
	rt must-fail

bench: kit
	bench/run.sh

slips: kit
	python3 differential/slips.py

clean:
	rm -rf build differential/build crates/*/out

kit:
	@command -v rt >/dev/null || { echo 'make: rt is missing: install the Rattle kit (README.md says which)' >&2; exit 2; }
