# make run: builds the program and judges the barn roof. make test: the whole gate. make compare N=..: the program against the second
# solver on N random jobs. make lib: the library for C, static and shared. make install PREFIX=..: the programs verdict and sakonite, the
# library, its headers, its pkg-config file, the man pages, the examples and the pages on texts and job files, below DESTDIR if one is
# named; make uninstall, with the same variables: removes them. make bench: speed, against a plain C version; with SLOW=slow the slow row
# too. make facts: writes what is generated from facts.txt; make facts-check: compares. make clean: removes all that was built, proofs
# that were checked too. CC=.. names the compiler for all of them.
.PHONY: run test compare lib install uninstall bench facts facts-check clean

N ?= 20000
PREFIX ?= /usr/local
SLOW ?=
LIBRARY ?= target/staticlib/libsakonite.a
PROGRAM ?= target/bin/verdict
# The header says which version this is.
version = $(shell sed -n 's/^.define SAKONITE_VERSION_$(1) //p' include/sakonite.h)
SHARED = $(dir $(LIBRARY))libsakonite.so.$(call version,MAJOR)
# What is installed, each as PLACE=SOURCE with its place below PREFIX.
below = $(foreach file,$(wildcard $(2)),$(1)/$(notdir $(file))=$(file))
programs = bin/verdict=$(PROGRAM) bin/sakonite=tools/sakonite lib/$(notdir $(SHARED))=$(SHARED)
files = lib/libsakonite.a=$(LIBRARY) $(call below,include,include/*.h) $(call below,share/man/man1,man/*.1) \
    $(call below,share/man/man3,man/*.3) lib/sakonite/sakonite.py=tools/sakonite.py \
    $(call below,lib/sakonite/sakonite_command,tools/sakonite_command/*.py) \
    $(call below,share/doc/sakonite,docs/FORMAT.md tools/README.md examples/*)
# The other names under which the page of the library is found.
pages = $(foreach name,check verdict advice finished losing_reply version text name,share/man/man3/sakonite_$(name).3)
# PREFIX and DESTDIR may contain blanks and quotes, which only the shell handles well.
quoted = '$(subst ','\'',$(1))'
places = set -e; prefix=$$(realpath -ms -- $(call quoted,$(or $(PREFIX),/))); into=$(call quoted,$(DESTDIR))$$prefix
# What is proved and built. Folders are among them: a folder is newer once a file in it has come or gone.
sources := crates.txt $(shell find crates/*/src crates/*/specs crates/*/proofs)

run: target/bin/verdict
	target/bin/verdict < examples/barn-roof.job
	@echo "yes: whatever the partners reply, this record can still be brought into deposit form" >&2

# rt proves and builds in the crate's own folder, and runs what it built, here on no input. It leaves a file alone if nothing changed; the
# copy says that it is up to date.
target/bin/%: $(sources)
	@mkdir -p $(@D)
	cd crates/$* && rt run </dev/null >/dev/null
	@cp crates/$*/out/$* $@

target/staticlib/libsakonite.a: $(sources)
	@mkdir -p $(@D)
	cd crates/sakonite_c && rt lib
	@cp crates/sakonite_c/out/libsakonite_c.a $@

# A program that is linked with it asks for it by the name that it carries, libsakonite.so.0.
$(SHARED): $(LIBRARY)
	$(CC) -shared -Wl,-soname,$(@F) -Wl,-z,defs -Wl,--whole-archive $(LIBRARY) -Wl,--no-whole-archive -o $@

test:
	bash .ci/run

compare: target/bin/verdict
	bash tests/run target/bin/verdict $(N)

lib: $(LIBRARY) $(SHARED)

install: lib $(PROGRAM)
	@$(places); \
	for file in $(programs); do install -D -m 755 "$${file#*=}" "$$into/$${file%%=*}"; done; \
	for file in $(files); do install -D -m 644 "$${file#*=}" "$$into/$${file%%=*}"; done; \
	ln -sf $(notdir $(SHARED)) "$$into/lib/libsakonite.so"; \
	for page in $(pages); do ln -sf sakonite.3 "$$into/$$page"; done; \
	install -d "$$into/lib/pkgconfig"; \
	{ printf 'prefix=%s\n' "$$prefix"; sed 's/@VERSION@/$(call version,MAJOR).$(call version,MINOR).$(call version,PATCH)/' sakonite.pc.in; } \
	    > "$$into/lib/pkgconfig/sakonite.pc"; \
	chmod 644 "$$into/lib/pkgconfig/sakonite.pc"

# Python leaves compiled files beside its own. Folders that others may use too stay, empty or not.
uninstall:
	@$(places); \
	for file in $(programs) $(files) $(pages); do rm -f "$$into/$${file%%=*}"; done; \
	rm -f "$$into/lib/libsakonite.so" "$$into/lib/pkgconfig/sakonite.pc"; \
	for folder in "$$into/lib/sakonite/sakonite_command" "$$into/lib/sakonite" "$$into/share/doc/sakonite"; do \
	    rm -rf "$$folder/__pycache__"; \
	    if [ -d "$$folder" ]; then rmdir --ignore-fail-on-non-empty "$$folder"; fi; \
	done

bench: $(LIBRARY)
	bash bench/run $(LIBRARY) $(SLOW)

facts:
	python3 .ci/facts.py write

facts-check:
	python3 .ci/facts.py check

clean:
	rm -rf target crates/*/out tools/__pycache__ tools/sakonite_command/__pycache__ tests/command_parts/__pycache__
