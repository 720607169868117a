# Over the two commands of the kit: the proved library and netplan, and the C program mzk linked with it.
#
#   make           target/staticlib/libmazhoketh.a, and in target/bin netplan and mzk; needs rt and cc
#   make test      all tests; needs cargo, gcc, g++, pkg-config and script too
#   make install   header, library, pkg-config file, programs and manual page under PREFIX (/usr/local), after DESTDIR
#                  if it is set
#   make clean     removes target/, and what the prover keeps in crates/*/out/
#
# What the prover says goes to target/make/*.log, and is shown where a proof fails.

VERSION = 0.1.0
PREFIX = /usr/local
CFLAGS = -O2 -Wall -Wextra

LIBRARY = target/staticlib/libmazhoketh.a
PROGRAMS = target/bin/netplan target/bin/mzk
CRATES = crates.txt $(shell find crates -name out -prune -o \
	\( -name '*.rt' -o -name '*.antt' -o -name stdin -o -name stdout \) -print)

all: $(LIBRARY) $(PROGRAMS)

# $(call prove,CRATE,COMMAND,FILE): a step of the prover in a crate's folder, told in a line, and a copy of the file
# that it makes in the crate's out/.
define prove
	@mkdir -p target/make $(@D)
	@echo "  PROVE  $(@F)  (minutes, if from nothing: target/make/$(@F).log)"
	@(cd crates/$(1) && $(2)) > target/make/$(@F).log 2>&1 || { cat target/make/$(@F).log; exit 1; }
	@cp crates/$(1)/out/$(3) $@
endef

$(LIBRARY): $(CRATES)
	$(call prove,mazhoketh_c,rt lib,libmazhoketh_c.a)

# One step of the prover at a time: both prove the crates that they share. The program is run on its sample.
target/bin/netplan: $(CRATES) | $(LIBRARY)
	$(call prove,netplan,rt run < stdin,netplan)

target/bin/mzk: $(wildcard mzk/*.c mzk/*.h) include/mazhoketh.h $(LIBRARY) Makefile
	@mkdir -p target/bin
	@echo "  CC     mzk"
	@$(CC) -std=c11 -D_POSIX_C_SOURCE=200809L -DVERSION='"$(VERSION)"' $(CFLAGS) -pthread -Iinclude \
		$(filter %.c,$^) $(LIBRARY) $(LDFLAGS) -o $@

test: all
	@for tool in cargo gcc g++ pkg-config script; do command -v $$tool > /dev/null || \
		{ echo "make test needs $$tool"; exit 1; }; done
	@echo "  TEST   the library beside the implementation in tests/"
	@cargo test --manifest-path tests/Cargo.toml --offline --quiet
	@echo "  TEST   make install"
	@tests/install.sh

INTO = "$(DESTDIR)$(PREFIX)"

install: all
	@echo "  INSTALL  $(DESTDIR)$(PREFIX)"
	@install -d $(INTO)/include $(INTO)/lib/pkgconfig $(INTO)/bin $(INTO)/share/man/man1
	@install -m 644 include/mazhoketh.h $(INTO)/include
	@install -m 644 $(LIBRARY) $(INTO)/lib
	@install -m 755 $(PROGRAMS) $(INTO)/bin
	@install -m 644 docs/mzk.1 $(INTO)/share/man/man1
	@sed 's|@PREFIX@|$(PREFIX)|; s|@VERSION@|$(VERSION)|' mazhoketh.pc.in > $(INTO)/lib/pkgconfig/mazhoketh.pc

clean:
	@rm -rf target crates/*/out

.PHONY: all test install clean
.DELETE_ON_ERROR:
