# Builds, shows, checks and installs Dusterindigo. `rt` is Rattle's command; nothing else is needed.

name    := dusterindigo
PROGRAM := crates/$(name)/out/$(name)
PREFIX  ?= /usr/local

# How many crates are proved side by side: one for each processor, and for each 4 GB of memory that are free.
JOBS ?= $(shell awk -v cpus="$$(nproc)" '/^MemAvailable/ {jobs = int($$2 / 4000000); if (jobs > cpus) jobs = cpus; print jobs < 1 ? 1 : jobs}' /proc/meminfo)

# The libraries below the program, lowest first; those that one crate names; and the files that all of them are made of.
libraries := $(shell scripts/below $(name))
named_by   = $(filter $(libraries),$(shell sed -n 's/^$(1)[^:]*: *//p' crates.txt))
sources   := crates.txt $(shell find $(libraries:%=crates/%) crates/$(name) -name out -prune -o \( -name '*.rt' -o -name '*.antt' \) -print)

.PHONY: build help demo test pages bench install uninstall package is-built $(libraries:%=proved-%)

build: $(PROGRAM)

help:
	@echo 'make            prove the libraries, and link the program: $(PROGRAM)'
	@echo 'make demo       run the examples, and show what they read and write'
	@echo 'make test       the gate: all proofs, wrong bodies and tests, then the checks of documents and of the program'
	@echo 'make pages      run all that the pages show, commands of other tools too where they are there'
	@echo 'make bench      time the program beside stock Rust, and write docs/PERFORMANCE.md'
	@echo 'make install    install what was built below PREFIX ($(PREFIX)), with its man page, scripts and pages'
	@echo 'make uninstall  take it away again'
	@echo 'make package    make a Debian package of what was built, in target/'
	@echo 'Users begin with docs/TUTORIAL.md, maintainers with CONTRIBUTING.md.'

# Proves the libraries, side by side where they do not stand on each other, and then the program, and links it. What
# has not changed is not proved again. (`rt run` runs it once, without words, which prints `usage`.)
$(PROGRAM): $(sources)
	@echo "proving the program and the $(words $(libraries)) libraries below it, $(JOBS) side by side; the first time takes minutes"
	@$(MAKE) --no-print-directory -j$(JOBS) $(libraries:%=proved-%)
	@mkdir -p $(@D) && rm -f $@ && cd crates/$(name) && { rt run >out/run.log 2>&1 || true; }
	@test -x $@ || { cat $(@D)/run.log; exit 1; }
	@echo "linked $@"

# A library, once those that it names are proved. One line says what was proved, and how long it took.
.SECONDEXPANSION:
$(libraries:%=proved-%): proved-%: $$(addprefix proved-,$$(call named_by,$$*))
	@mkdir -p crates/$*/out; cd crates/$*; start=$$(date +%s); \
	rt lib >out/lib.log 2>&1 || { cat out/lib.log; exit 1; }; \
	if [ -s out/lib.log ]; then echo "proved $* in $$(($$(date +%s) - start)) s"; fi

# Runs the examples and shows what they write.
demo: $(PROGRAM)
	@scripts/demo $(PROGRAM) examples/first-sum
	@scripts/demo $(PROGRAM) examples/storm-runoff
	@scripts/demo $(PROGRAM) examples/soil-bucket
	@scripts/demo $(PROGRAM) examples/rainfall-runoff
	@scripts/demo $(PROGRAM) examples/flood-stage
	@scripts/demo $(PROGRAM) examples/soil-moisture
	@scripts/demo $(PROGRAM) examples/gauged-areas

# The gate: every proof, must-fail edit, test and program, and then the project's own checks: of its definitions, of its
# documents, of the editors' colours, of the built program and of what is installed of it.
test:
	rt ci
	@$(MAKE) --no-print-directory $(PROGRAM)
	@scripts/check-names
	@scripts/believed --check
	@scripts/check-claims
	@scripts/check-where
	@scripts/examples-in-tests --check
	@scripts/check-colours
	@scripts/check-program $(PROGRAM)
	@scripts/check-release $(PROGRAM)
	@scripts/compare-tilings $(PROGRAM)

# Runs all that the pages show, commands of other tools too, and says what was passed over. No part of the gate.
pages: $(PROGRAM)
	@scripts/check-pages $(PROGRAM)

# Times the program beside a small one in stock Rust, and writes docs/PERFORMANCE.md. No part of the gate.
bench: $(PROGRAM)
	@cd crates/timed_calls && { rt run >out.log 2>&1 || { cat out.log; exit 1; }; rm -f out.log; }
	@scripts/bench $(PROGRAM)

# Installs what was built, and builds nothing, so that root proves nothing.
install: is-built
	@scripts/installed add '$(DESTDIR)$(PREFIX)' $(PROGRAM)

uninstall:
	@scripts/installed remove '$(DESTDIR)$(PREFIX)'

# A Debian package of what was built.
package: is-built
	@scripts/package $(PROGRAM) target

is-built:
	@$(MAKE) --no-print-directory -q $(PROGRAM) || { echo 'the program is not there or older than its sources: run make build first' >&2; exit 1; }
