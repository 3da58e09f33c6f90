# The tests of the C side. A file directly in tests/ is a program; the folders hold what programs share.
# With another seed and number of rounds: make c-test SEED=7 ROUNDS=30000
SEED ?= 1
ROUNDS ?= 6000
SANITIZED_ROUNDS ?= 2500
DESK_ROUNDS ?= 600
SANITIZED_DESK_ROUNDS ?= 200
PLAIN_ROUNDS ?= 200000
SANITIZED_PLAIN_ROUNDS ?= 20000
RUNS ?= 1000
LIMIT ?= timeout 600

TESTS := $(notdir $(basename $(wildcard tests/*.c tests/*.cpp)))
COMPARED := tests/differential tests/generators tests/reference tests/support
TRANSCRIPTS := README.md $(wildcard tests/desk/*.txt)
BIN := target/c/bin
SANITIZED := target/c-sanitized/bin
WITH_SANITIZERS := $(addprefix $(SANITIZED)/,differential plain empty desk desk_lines desk_random)

# every test, those on random input and the desk's with sanitizers too; the last line is the total
c-test: lib $(PROGRAM) $(HOSTS) $(DESK) $(TESTS:%=$(BIN)/%) $(WITH_SANITIZERS)
	@{ $(MAKE) -s --no-print-directory example outside-names desk-start verdicts && \
	$(LIMIT) $(BIN)/transcripts $(DESK) $(TRANSCRIPTS) && \
	$(LIMIT) $(BIN)/transcripts $(SANITIZED)/desk $(PAGE) $(TRANSCRIPTS) && \
	$(LIMIT) $(BIN)/desk_lines && $(LIMIT) $(SANITIZED)/desk_lines && \
	$(LIMIT) $(BIN)/desk_random $(SEED) $(DESK_ROUNDS) && \
	$(LIMIT) $(SANITIZED)/desk_random $(SEED) $(SANITIZED_DESK_ROUNDS) && \
	$(LIMIT) $(BIN)/empty && $(LIMIT) $(SANITIZED)/empty && \
	$(LIMIT) $(BIN)/header && $(LIMIT) $(BIN)/readings && $(LIMIT) $(BIN)/counts && $(LIMIT) $(BIN)/unlisted && \
	$(LIMIT) $(BIN)/limit && $(LIMIT) $(BIN)/stack && \
	$(LIMIT) $(BIN)/plain $(SEED) $(PLAIN_ROUNDS) && \
	$(LIMIT) $(SANITIZED)/plain $(SEED) $(SANITIZED_PLAIN_ROUNDS) && \
	$(LIMIT) $(BIN)/differential $(SEED) $(ROUNDS) && \
	$(LIMIT) $(SANITIZED)/differential $(SEED) $(SANITIZED_ROUNDS) && \
	$(LIMIT) $(BIN)/feed $(PROGRAM) $(SEED) $(RUNS); } > target/c/tests.log || { cat target/c/tests.log; exit 1; }
	@cat target/c/tests.log
	@awk '/^[0-9]+ passed, [0-9]+ failed$$/ { passed += $$1; failed += $$3 } \
		END { printf "%d passed, %d failed\n", passed, failed }' target/c/tests.log

# the library needs two names from outside and nothing else
outside-names: $(LIBRARY)
	@test "$$(nm -u $(LIBRARY) | awk 'NF == 2 { print $$2 }' | sort -u | tr '\n' ' ')" = 'memcpy memset '
	@echo "1 passed, 0 failed"

# the desk as a program: it asks for no memory; a script with a byte order mark and CR LF, one that is missing, bytes that
# are no script, and words that it does not take
desk-start: $(DESK) $(SANITIZED)/desk
	@! nm -u $(call objects,c,examples/desk) | grep -w 'malloc\|calloc\|realloc'
	@test "$$(printf '\357\273\277sheet a b\r\na 5\r\nquit\r\na 6' | $(DESK) -)" = \
		"$$(printf '> sheet a b\nsheet 0 is a, with 1 column: b\n> a 5\na has 1 row\n> quit')"
	@! $(DESK) target/no-such-script 2> /dev/null
	@$(SANITIZED)/desk - < $(LIBRARY) > /dev/null
	@for words in -x -i '-i -' 'a b c'; do ! $(DESK) $$words 2> /dev/null < /dev/null || exit 1; done
	@echo "8 passed, 0 failed"

# every line of the page for crews at the desk, and every question of it through the program
PAGE := docs/VERDICTS.md
verdicts: $(BIN)/transcripts $(BIN)/verdicts $(DESK) $(PROGRAM)
	$(BIN)/transcripts $(DESK) $(PAGE)
	$(BIN)/verdicts $(PAGE) $(PROGRAM)

# what each program is linked with, besides its own object
$(BIN)/differential $(BIN)/readings $(BIN)/counts $(BIN)/unlisted: $(call objects,c,$(COMPARED)) $(LIBRARY)
$(BIN)/feed: $(call objects,c,tests/generators tests/reference tests/support) $(LIBRARY)
$(BIN)/header $(BIN)/empty: $(call objects,c,tests/support) $(LIBRARY)
$(BIN)/limit: $(call objects,c,tests/reference tests/support) $(LIBRARY)
$(BIN)/transcripts: $(call objects,c,tests/support)
$(BIN)/stack: $(call objects,c,bench/baseline bench/measure bench/work tests/reference tests/support) $(LIBRARY)
$(BIN)/verdicts: $(call objects,c,tests/page tests/reference tests/support) $(LIBRARY)
$(BIN)/plain: $(call objects,c,tests/plain $(COMPARED)) $(LIBRARY)
$(SANITIZED)/differential: $(call objects,c-sanitized,$(COMPARED)) $(LIBRARY)
$(SANITIZED)/plain: $(call objects,c-sanitized,tests/plain $(COMPARED)) $(LIBRARY)
$(SANITIZED)/empty: $(call objects,c-sanitized,tests/support) $(LIBRARY)
# which pointers come to the library is seen at its own functions alone
WRAPPED := decode insert substitute substitute_logged undo null_counts encode ask ask_unlisted
$(BIN)/empty $(SANITIZED)/empty: WRAP = $(WRAPPED:%=-Wl,--wrap=plotask_%)

# the desk without its own start
desk_objects = $(filter-out %/main.o,$(call objects,$(1),examples/desk))
LINES := tests/desk_lines tests/support tests/typing
RANDOM := tests/desk_random tests/generators tests/reference tests/support tests/typing
$(BIN)/desk_lines: $(call desk_objects,c) $(call objects,c,$(LINES)) $(LIBRARY)
$(SANITIZED)/desk_lines: $(call desk_objects,c-sanitized) $(call objects,c-sanitized,$(LINES)) $(LIBRARY)
# whether a question is asked with a list or without one is seen at the calls alone
$(BIN)/desk_lines $(SANITIZED)/desk_lines: WRAP = -Wl,--wrap=plotask_ask,--wrap=plotask_ask_unlisted
$(BIN)/desk_random: $(call desk_objects,c) $(call objects,c,$(RANDOM)) $(LIBRARY)
$(SANITIZED)/desk_random: $(call desk_objects,c-sanitized) $(call objects,c-sanitized,$(RANDOM)) $(LIBRARY)

$(SANITIZED)/desk: $(call objects,c-sanitized,examples/desk) $(LIBRARY)
	@mkdir -p $(@D)
	$(LINK) $^ -o $@

LINK = $(CC)
$(BIN)/header: LINK = $(CXX)
$(SANITIZED)/%: LINK = $(CC) $(SANITIZE)

$(TESTS:%=$(BIN)/%): $(BIN)/%: target/c/tests/%.o
	@mkdir -p $(@D)
	$(LINK) $(WRAP) $^ -o $@

$(SANITIZED)/%: target/c-sanitized/tests/%.o
	@mkdir -p $(@D)
	$(LINK) $(WRAP) $^ -o $@
