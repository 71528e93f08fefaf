# Bandrolt: try it, run it, test it, measure it. What each target needs is said if it is missing.
LIBRARIES = composer flat_table origins factors sizes
ARCHIVES = $(LIBRARIES:%=target/staticlib/lib%.a)
PROGRAM = target/bin/bandrolt
SOURCES = crates.txt $(shell find crates -path '*/out' -prune -o \( -name '*.rt' -o -name '*.antt' \) -print)
BUILD = harness/target
CC_FLAGS = -std=c11 -Wall -Wextra -Werror -O2 -Iinclude
HARNESS = --quiet --offline --release --manifest-path harness/Cargo.toml
CARGO = cargo run $(HARNESS) --bin
# Two rt at once would prove the crates that both stand on twice; so each waits for the other, also under make -j.
RT = flock target/rt.lock tools/rt.sh

# Prints the table of document 01's sample R, or of RECIPE=file in the text form of examples/, unproved: seconds.
SAMPLE = examples/sample-r.recipe
RECIPE = $(SAMPLE)
try: tools-there
ifeq ($(RECIPE),$(SAMPLE))
	@tools/try.sh crates/bandrolt/stdin crates/bandrolt/stdout
else
	@$(CARGO) recipe encode "$(RECIPE)" > target/recipe
	@$(CARGO) recipe print target/recipe > target/printed
	@tools/try.sh target/recipe target/printed
endif

# The same with the proved program, which takes some minutes to prove, once.
run: $(PROGRAM)
	@$(CARGO) recipe encode "$(RECIPE)" > target/recipe
	@$(PROGRAM) < target/recipe

# Checks the flat table of sample R, or the bytes of TABLE=file, as the solver would.
TABLE = examples/sample-r.table
table: $(BUILD)/solver
	@$(BUILD)/solver table "$(TABLE)"

# How many records and bytes the table of sample R, or of RECIPE=file, will have, and how long its longest name will be.
size: $(BUILD)/solver
	@$(CARGO) recipe encode "$(RECIPE)" > target/recipe
	@$(BUILD)/solver size target/recipe

# Where a flat name comes from, in words: through which submodels of sample R, or of RECIPE=file, to which element.
NAME = a__s
origin: lib
	@$(CARGO) recipe encode "$(RECIPE)" > target/recipe
	@$(CARGO) origin target/recipe "$(NAME)"

# The whole gate; its last line is 'N passed, M failed'.
test: tools-there valgrind-there
	@tools/test.sh

# Our calls beside the other program's, as a ratio, on typical and on hostile input.
bench: lib
	@$(CARGO) bench
	@$(CARGO) bench_recipes
	@$(CARGO) bench_origins
	@$(CARGO) bench_factors

# The static libraries, target/staticlib/lib*.a: the crate NAME_c exports the calls of NAME.
lib: $(ARCHIVES)

$(ARCHIVES): target/staticlib/lib%.a: $(SOURCES) | tools-there
	@echo "proving $*_c and all crates below it, once: some minutes" >&2
	@tools/progress.sh target/lib-$*.log $(RT) $*_c lib
	@mkdir -p target/staticlib
	@cp crates/$*_c/out/lib$*_c.a $@

# The printing program.
$(PROGRAM): $(SOURCES) | tools-there
	@echo "proving the program and all crates below it, once: some minutes (make try needs seconds, and proves nothing)" >&2
	@tools/progress.sh target/program.log $(RT) bandrolt run
	@mkdir -p target/bin
	@cp crates/bandrolt/out/bandrolt $@

# The programs that the gate runs after rt ci; each ends with 'N passed, M failed'.
compare recipes origins: %: lib
	@$(CARGO) $@

program: lib $(PROGRAM)
	@$(CARGO) program $(PROGRAM)

# Few recipes and walks, and the solver, under valgrind: no call reads or writes what it was not lent, nor goes by a byte that
# nobody wrote.
memory: memory-recipes memory-origins memory-solver
memory-recipes memory-origins: memory-%: lib valgrind-there
	@CARGO_TARGET_X86_64_UNKNOWN_LINUX_GNU_RUNNER="valgrind --quiet --error-exitcode=9" $(CARGO) $* few

memory-solver: $(BUILD)/solver valgrind-there
	@valgrind --quiet --error-exitcode=9 $(BUILD)/solver

solver stack: %: $(BUILD)/%
	@$(BUILD)/$@

$(BUILD)/%: harness/c/%.c harness/c/recipe.h include/bandrolt.h $(ARCHIVES)
	@mkdir -p $(BUILD)
	@gcc $(CC_FLAGS) $< $(ARCHIVES) -pthread -o $@

# All that those programs need, made once, so that they can go side by side.
ready: lib $(PROGRAM) $(BUILD)/solver $(BUILD)/stack
	@cargo build $(HARNESS)

tools-there:
	@for tool in rt gcc cargo; do command -v $$tool > /dev/null || { echo "bandrolt needs $$tool, which is not on this machine's PATH"; exit 1; }; done
	@mkdir -p target

valgrind-there:
	@command -v valgrind > /dev/null || { echo "bandrolt's memory test needs valgrind, which is not on this machine's PATH"; exit 1; }

.PHONY: try run table size origin test bench lib compare recipes origins program memory memory-recipes memory-origins memory-solver solver stack ready tools-there valgrind-there
