# test is the gate: proofs, must-fail edits, programs and host tests. demo plays the ten-ride ticket and says what happened. lib makes the library for C.
# bench and layout prove and build a program, benchmark times the library beside the plain Rust tag.
.PHONY: demo bench layout test lib benchmark

demo: bench
	tools/words.py samples/ten_rides

bench:
	host/program.sh bench
	@echo 'program: target/bin/bench'

layout:
	host/program.sh layout
	@echo 'program: target/bin/layout'

test:
	.ci/run

lib:
	host/library.sh
	@echo 'library: target/staticlib/libtag_c.a'
	@echo 'header:  include/kazdumera.h'
	@echo 'guide:   docs/C-FORM.md'

benchmark:
	host/benchmark/benchmark.sh
