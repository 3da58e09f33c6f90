# The program and the library are built by rt, in out/ of their crates, the C side by the rules here and in the .mk file
# of each folder. What is built goes below target/.
.PHONY: run test fmt lib c-test outside-names example desk desk-start verdicts bench bench-page builds builds-since \
	bench-sqlite bench-sqlite-page sqlite
# objects on the way to a program are kept
.SECONDARY:

# the crate whose exports are the library for C
EXPORTS := exports
# what a build is made from; rt keeps copies of sources in out/
CRATES := crates.txt $(shell find crates -name out -prune -o \( -name '*.rt' -o -name '*.antt' \) -print)
LIBRARY := target/lib/libplotask.a
PROGRAM := target/bin/plotask

# proves and builds what plotask needs, and puts document 01's whole case through it: it prints `unknown 4`
run: $(PROGRAM)
	@$(PROGRAM) < crates/plotask/stdin

# the gate
test:
	.ci/run

# formats every .rt and .antt file, and the C side
fmt:
	@for crate in crates/*/; do (cd $$crate && rt fmt) || exit 1; done
	clang-format -i $$(find include examples tests bench -name '*.[ch]' -o -name '*.cpp')

# proves and builds the calls for C, and puts library, header and pkg-config file in one folder
lib: $(LIBRARY) target/lib/plotask.h target/lib/plotask.pc

$(LIBRARY): crates/$(EXPORTS)/out/lib$(EXPORTS).a
	@mkdir -p $(@D)
	cp $< $@

crates/$(EXPORTS)/out/lib$(EXPORTS).a: $(CRATES)
	cd crates/$(EXPORTS) && rt lib
	@touch $@

target/lib/plotask.%: include/plotask.%
	@mkdir -p $(@D)
	cp $< $@

$(PROGRAM): crates/plotask/out/plotask
	@mkdir -p $(@D)
	cp $< $@

# rt builds a program when it runs it
crates/plotask/out/plotask: $(CRATES)
	cd crates/plotask && rt run < stdin > /dev/null
	@touch $@

CFLAGS := -std=c11 -O2 -Wall -Wextra -Werror
CXXFLAGS := -std=c++11 -O2 -Wall -Wextra -Wpedantic -Wold-style-cast -Wconversion -Werror
CPPFLAGS := -D_XOPEN_SOURCE=700 -Iinclude -Iexamples -Itests -Ibench
SANITIZE ?= -g -fsanitize=address,undefined -fno-sanitize-recover=all
# each loop starts on a line of its own, so that its time does not depend on where the linker puts it
ALIGN ?= -falign-functions=64 -falign-loops=32

# C is compiled in three ways, each with a folder below target/: plainly, with sanitizers, and aligned for timing
target/c/%.o: %.c
	@mkdir -p $(@D)
	$(CC) $(CPPFLAGS) $(CFLAGS) -MMD -MP -c $< -o $@

target/c/%.o: %.cpp
	@mkdir -p $(@D)
	$(CXX) $(CPPFLAGS) $(CXXFLAGS) -MMD -MP -c $< -o $@

target/c-sanitized/%.o: %.c
	@mkdir -p $(@D)
	$(CC) $(CPPFLAGS) $(CFLAGS) $(SANITIZE) -MMD -MP -c $< -o $@

target/c-aligned/%.o: %.c
	@mkdir -p $(@D)
	$(CC) $(CPPFLAGS) $(CFLAGS) $(ALIGN) -MMD -MP -c $< -o $@

-include $(shell find target/c target/c-sanitized target/c-aligned -name '*.d' 2> /dev/null)

# the objects of whole folders, compiled in one of these ways: $(call objects,c,tests/page tests/support)
objects = $(patsubst %.c,target/$(1)/%.o,$(wildcard $(2:%=%/*.c)))

include examples/examples.mk tests/tests.mk bench/bench.mk bench/sqlite/sqlite.mk
