# `make run` plays an example sheet; `make test` is the gate; `make panel` builds the panel, a C program; `make bench` measures.

# Two rt at one time would work in one folder.
.NOTPARALLEL:

.PHONY: run test check sheets-test panel panel-test native-test bench

run: target/bin/play
	target/bin/play < sheets/morning.sheet

test:
	rt ci

# Faster than the gate, and no verdict: what has not changed is not proved again.
check:
	rt all check

# Every sheet that is kept has the answer that is kept beside it.
sheets-test: target/bin/play
	@for sheet in sheets/*.sheet; do \
	  target/bin/play < $$sheet | cmp - $${sheet%.sheet}.answer || exit 1; \
	  echo "$$sheet: as kept"; \
	done

# THE PANEL, which is the library seen from C: panel builds the program, and panel-test holds the library to play.

PANEL_CC := gcc
PANEL_CFLAGS := -std=c11 -Wall -Wextra -Werror -pedantic
PANEL_SANITIZE := -g -fsanitize=address,undefined -fno-sanitize-recover=all
PANEL_LIB := target/staticlib/libpanel.a
PANEL_CRATES := crates.txt $(shell find crates -type f -not -path '*/out/*')

panel: target/panel/panel

# The program has no test of its own: it has to print what play prints, a good sheet and a bad one.
panel-test: target/panel/panel_test target/panel/panel target/bin/play
	target/panel/panel_test target/bin/play
	@printf 'I 2 1\nN 3020 0\nG 0 u\nG 0 d\nX' > target/panel/good.sheet
	@printf 'I 2 3\n' > target/panel/bad.sheet
	@for s in good bad; do \
	  target/bin/play < target/panel/$$s.sheet > target/panel/$$s.play && \
	  target/panel/panel target/panel/$$s.sheet > target/panel/$$s.panel && \
	  cmp target/panel/$$s.play target/panel/$$s.panel || exit 1; \
	done

target/panel/panel: panel/panel.c panel/gomtaiwu_panel.h $(PANEL_LIB)
	mkdir -p $(@D)
	$(PANEL_CC) $(PANEL_CFLAGS) -O2 -o $@ $< $(PANEL_LIB)

target/panel/panel_test: $(wildcard panel/test/*.[ch]) panel/gomtaiwu_panel.h $(PANEL_LIB)
	mkdir -p $(@D)
	$(PANEL_CC) $(PANEL_CFLAGS) $(PANEL_SANITIZE) -Ipanel -o $@ $(filter %.c,$^) $(PANEL_LIB)

# What rt builds lies in the crate's folder out/.
$(PANEL_LIB): $(PANEL_CRATES)
	cd crates/panel && rt lib
	mkdir -p $(@D)
	cp crates/panel/out/libpanel.a $@

# rt builds a program where it runs it.
target/bin/play: $(PANEL_CRATES)
	cd crates/play && rt run < stdin > /dev/null
	mkdir -p $(@D)
	cp crates/play/out/play $@

# THE SECOND OPINION, a plain implementation that knows the rules and not the library: native-test compares the two on sheets of
# every kind, and bench measures them side by side.

NATIVE_SEED ?= 1
NATIVE_LINES ?= 200000
NATIVE_BUILD = PANEL_A=$(abspath $(PANEL_LIB)) CARGO_TARGET_DIR=$(abspath target/native) \
	cargo build --quiet --release --locked --offline --manifest-path native/Cargo.toml

native-test: $(PANEL_LIB)
	$(NATIVE_BUILD)
	target/native/release/compare $(NATIVE_SEED) $(NATIVE_LINES)

bench: $(PANEL_LIB)
	$(NATIVE_BUILD)
	target/native/release/bench
