# Each file is a program, compiled over target/lib as by a user of the library, in the oldest C that plotask.h takes.
EXAMPLES := $(notdir $(basename $(wildcard examples/*.c)))
HOSTS := $(EXAMPLES:%=target/c/bin/%)
DESK := target/c/bin/desk

# the sample cue host, and what it prints; the desk over its script, and then over what README has one type
example: $(HOSTS) $(DESK)
	@for host in $(EXAMPLES); do \
		target/c/bin/$$host > target/c/$$host.out && diff examples/$$host.out target/c/$$host.out || exit 1; \
	done
	@printf 'ask hire 201\nfill m1 201\n' | $(DESK) -i examples/hire.desk > target/c/hire.out && \
		diff examples/hire.out target/c/hire.out
	@echo "$(words $(EXAMPLES) hire) passed, 0 failed"

$(HOSTS): target/c/bin/%: examples/%.c $(LIBRARY) target/lib/plotask.h
	@mkdir -p $(@D)
	$(CC) -std=c99 -O2 -Wall -Wextra -Wpedantic -Werror -Itarget/lib $< -Ltarget/lib -lplotask -o $@

# the desk, a program of several files in C11, at the terminal with a small plot; another script: make desk SCRIPT=..
SCRIPT ?= examples/hire.desk

desk: $(DESK)
	@$(DESK) -i $(SCRIPT)

# the desk knows plotask by its header alone
target/c/examples/desk/%.o target/c-sanitized/examples/desk/%.o: CPPFLAGS := -Iinclude
target/c/examples/desk/%.o target/c-sanitized/examples/desk/%.o: CFLAGS += -Wpedantic

$(DESK): $(call objects,c,examples/desk) $(LIBRARY)
	@mkdir -p $(@D)
	$(CC) $^ -o $@
