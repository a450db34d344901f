# run: builds the program and plans book A. test: the gate. library: target/staticlib/libflowplan.a. program: target/bin/plan.
# bench, bench-between: ratios measured in one run, never a pass or fail.
.PHONY: run test library program bench bench-between

run: program
	target/bin/plan < crates/plan/stdin

test:
	.ci/run

library:
	cd crates/flowplan && rt lib >&2
	mkdir -p target/staticlib && cp crates/flowplan/out/libflowplan.a target/staticlib/

program:
	cd crates/plan && rt run < stdin > /dev/null
	mkdir -p target/bin && cp crates/plan/out/plan target/bin/

bench:
	$(MAKE) --no-print-directory library
	cd tests && cargo run --release --offline --quiet --bin bench_check
	cd tests && cargo run --release --offline --quiet --bin bench_plan
	cd tests && cargo run --release --offline --quiet --bin bench_dispatch
	cd tests && cargo run --release --offline --quiet --bin bench_finish

# This library beside that of an earlier commit that has `make library`: make bench-between BEFORE=COMMIT. The calls of one from before Req 07 take no
# calendar.
SHARED = cc -shared -Wl,-u,flowplan_plan -Wl,-u,flowplan_check
bench-between:
	@test -n "$(BEFORE)" || { echo "make bench-between BEFORE=COMMIT"; exit 2; }
	$(MAKE) --no-print-directory library
	$(SHARED) target/staticlib/libflowplan.a -o target/after.so
	before=$$(mktemp -d) && git clone -q . $$before && cd $$before && git checkout -q $(BEFORE) && $(MAKE) --no-print-directory library && \
	$(SHARED) target/staticlib/libflowplan.a -o $(CURDIR)/target/before.so && \
	calendars=$$(grep -q FLOWPLAN_NO_WINDOWS include/flowplan.h || echo --before-calendars) && rm -rf $$before && cd $(CURDIR)/tests && \
	cargo run --release --offline --quiet --bin bench_between -- ../target/before.so ../target/after.so $$calendars
