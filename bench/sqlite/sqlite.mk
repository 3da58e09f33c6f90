# The row test against SQLite. Neither the gate nor `make bench` needs this.
SQLITE_TABLES := $(ALIGNED)/sqlite_times $(ALIGNED)/sqlite_answers

# times of the same row tests, and what SQLite answers where a null stands
bench-sqlite: $(SQLITE_TABLES)
	@$(machine)
	@for table in $^; do $$table || exit 1; done

# renews their tables in docs/BENCHMARKS.md
bench-sqlite-page: $(SQLITE_TABLES)
	$(call renewed,bench-sqlite)

$(SQLITE_TABLES): $(ALIGNED)/%: target/c-aligned/bench/%.o target/c-aligned/bench/sqlite/table.o $(MEASURED) $(LIBRARY)
	@mkdir -p $(@D)
	$(CC) $^ -lsqlite3 -o $@

target/c-aligned/bench/sqlite/table.o $(SQLITE_TABLES:$(ALIGNED)/%=target/c-aligned/bench/%.o): | sqlite

sqlite:
	@bench/sqlite/install
