# Times and stack of the library's calls. A file directly in bench/ is a program; the folders hold what programs share.
MEASURED := $(call objects,c-aligned,bench/baseline bench/measure bench/work tests/reference)
ALIGNED := target/c-aligned/bin
TABLES := $(ALIGNED)/bench $(ALIGNED)/row_test $(ALIGNED)/unlisted

# times as ratios to C, and the stack: the tables of docs/BENCHMARKS.md
bench: $(TABLES)
	@$(machine)
	@for table in $^; do $$table || exit 1; done

# renews those tables in docs/BENCHMARKS.md
bench-page: $(TABLES)
	$(call renewed,bench)

define machine
echo "Machine: $$(lscpu | sed -n 's/^Model name: *//p'). C compiler: $$($(CC) --version | head -1), \`$(CFLAGS) $(ALIGN)\`."; echo
endef

# puts what a rule prints between its mark and the end mark of docs/BENCHMARKS.md: $(call renewed,rule)
define renewed
$(MAKE) -s --no-print-directory $(1) > $(ALIGNED)/$(1).md
awk -v rule=$(1) -v tables=$(ALIGNED)/$(1).md -f bench/renew.awk docs/BENCHMARKS.md > $(ALIGNED)/page.md
cp $(ALIGNED)/page.md docs/BENCHMARKS.md
endef

$(TABLES): $(ALIGNED)/%: target/c-aligned/bench/%.o $(MEASURED) $(LIBRARY)
	@mkdir -p $(@D)
	$(CC) $^ -o $@

# this build's calls against those of an earlier one, beside two controls: each build against a copy of itself
# make builds OTHER=path/libplotask.a
builds: target/c-aligned/bench/builds.o $(MEASURED) $(LIBRARY)
	$(if $(OTHER),,$(error the earlier build is missing: make builds OTHER=path/libplotask.a))
	@mkdir -p $(ALIGNED)
	@$(call renamed,this,this_,$(LIBRARY))
	@$(call renamed,control,control_,$(LIBRARY))
	@$(call renamed,other,other_,$(OTHER))
	@$(call renamed,other_control,other_control_,$(OTHER))
	$(CC) $(filter %.o,$^) $(COPIES:%=$(ALIGNED)/%.o) $(LIBRARY) -o $(ALIGNED)/builds
	@$(ALIGNED)/builds
COPIES := this control other other_control
# how many bytes after the start of a page every function of a copy starts: the time of a short loop depends on where in
# a line of the cache it stands, so a difference that is due to the code shows at each PLACE of 0, 16, 32 and 48
PLACE ?= 0

# the same against the library of a commit, which the installed kit builds in a working tree of its own, kept for the
# next time: make builds-since COMMIT=57c0b91
SINCE = target/since/$(shell git rev-parse --verify --quiet '$(COMMIT)^{commit}')
builds-since:
	$(if $(notdir $(SINCE)),,$(error no such commit: make builds-since COMMIT=57c0b91))
	@test -e $(SINCE)/.git || git worktree add --force --detach $(SINCE) $(notdir $(SINCE))
	@git -C $(SINCE) checkout --quiet --detach $(notdir $(SINCE))
	$(MAKE) --no-print-directory -C $(SINCE) lib
	$(MAKE) --no-print-directory builds OTHER=$(SINCE)/target/lib/libplotask.a

# copies an archive's object, with a prefix before every symbol that it defines, and with every function at the same
# place in a page, so that the same code has the same time in each copy: $(call renamed,copy,prefix,archive)
define renamed
nm --extern-only --defined-only --format=posix $(3) | awk 'NF > 1 { print $$1, "$(2)" $$1 }' > $(ALIGNED)/$(1).symbols && \
	objdump -h $(3) | sed -n 's/.* \(\.text\.[^ ]*\) .*/SECTIONS { "\1" 0 : { . += $(PLACE); *("\1") } }/p' \
		> $(ALIGNED)/$(1).places && \
	ld -r -T $(ALIGNED)/$(1).places --whole-archive $(3) -o $(ALIGNED)/$(1).o && \
	objcopy --redefine-syms=$(ALIGNED)/$(1).symbols --set-section-alignment '.text*=4096' $(ALIGNED)/$(1).o
endef
