# The commands of this repository; docs/GUIDE.md says what each is for.

PREFIX = /usr/local
DESTDIR =
CFLAGS = -std=c99 -O2 -Wall -Wextra -pedantic

.PHONY: run check lib program install examples test edits bench clean

run:
	@tools/run.sh

check:
	@mkdir -p target
	@rt all check --jobs "$$(nproc)" >target/check.log 2>&1 || { cat target/check.log; exit 1; }

lib:
	@mkdir -p target/lib
	@(cd crates/capi && rt lib) >target/lib.log 2>&1 || { cat target/lib.log; exit 1; }
	@cmp -s crates/capi/out/libcapi.a target/lib/libpanelrights.a || \
		cp crates/capi/out/libcapi.a target/lib/libpanelrights.a

program:
	@mkdir -p target/bin
	@(cd crates/panelrights && rt run </dev/null) >target/program.log 2>&1 || { cat target/program.log; exit 1; }
	@cp crates/panelrights/out/panelrights target/bin

# The file VERSION has the project's version: docs/DECISIONS.md (66) says when it moves.
install: lib
	@sed -e 's|@PREFIX@|$(PREFIX)|' -e "s|@VERSION@|$$(cat VERSION)|" panelrights.pc.in >target/lib/panelrights.pc
	install -d '$(DESTDIR)$(PREFIX)/include' '$(DESTDIR)$(PREFIX)/lib/pkgconfig'
	install -m 644 include/panelrights.h '$(DESTDIR)$(PREFIX)/include'
	install -m 644 target/lib/libpanelrights.a '$(DESTDIR)$(PREFIX)/lib'
	install -m 644 target/lib/panelrights.pc '$(DESTDIR)$(PREFIX)/lib/pkgconfig'

examples: lib
	@mkdir -p target/examples
	@for name in handover opening; do \
		$(CC) $(CFLAGS) -Iinclude examples/$$name.c -Ltarget/lib -lpanelrights -o target/examples/$$name-c && \
		CARGO_TARGET_DIR=target/cargo cargo build --quiet --locked --release \
			--manifest-path examples/$$name-rust/Cargo.toml && \
		cp target/cargo/release/$$name target/examples/$$name-rust || exit 1; \
	done
	@target/examples/handover-c examples/school.site
	@printf '\nWhy does panel 2 see table 9? handover-c --why 5 9 examples/school.site\n\n'
	@target/examples/handover-c --why 5 9 examples/school.site
	@printf '\nA school is opened there: opening-c examples/school.site 0 9 10 14 30\n\n'
	@target/examples/opening-c examples/school.site 0 9 10 14 30
	@echo
	@echo 'On a site file of your own: target/examples/handover-c FILE, or handover-rust;'
	@echo 'target/examples/opening-c FILE ACTIVATOR SCHOOL HALL KEYHOLDER TABLE, or opening-rust'
	@echo 'To change the file by instructions, a line each: target/examples/handover-c --change FILE <INSTRUCTIONS'
	@echo 'Why an area sees a table, or why not: target/examples/handover-c --why AREA TABLE FILE'

test:
	@tests/gate.sh

edits:
	@tools/edits.sh

bench: lib program
	@cd bench && CARGO_TARGET_DIR=../target/cargo cargo run --quiet --locked --release

clean:
	rm -rf target
