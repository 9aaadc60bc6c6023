# make run      a blotted sheet through the program sheetread (INPUT=file: another input)
# make trial    the same through the program trialread, which reads small sheets by trial
# make test     the whole gate, set-up included
# make lib      libsheet.a, for C          make install PREFIX=/usr/local DESTDIR=
# make bench    times beside plain Rust (BEFORE=commit: and beside that commit's library, in the same run)
# make host     the example host in C      make clean
# make table    the column table of the house plan, by the program housetable
# make find     polynomials for sheets of N1= rows and N2= columns, bursts of B1= by B2=
#               (T=: of at most so many cells; MOST=: so many polynomials a degree)
CARGO_TARGET_DIR ?= $(CURDIR)/build/cargo
export CARGO_TARGET_DIR
PREFIX ?= /usr/local
DESTDIR ?=
LIB := target/staticlib/libsheet.a
PROGRAM := crates/sheetread/out/sheetread
TRIAL := crates/trialread/out/trialread
TABLE := crates/housetable/out/housetable
SOURCES := crates.txt $(shell find crates -name out -prune -o \( -name '*.rt' -o -name '*.antt' \) -print)
N1 ?= 512
N2 ?= 698
B1 ?= 3
B2 ?= 3
T ?= 0
MOST ?=

.PHONY: run trial test lib host find table install bench clean

run: INPUT ?= crates/sheetread/stdin
run: $(PROGRAM)
	@$(PROGRAM) < $(INPUT)

trial: INPUT ?= crates/trialread/stdin
trial: $(TRIAL)
	@$(TRIAL) < $(INPUT)

test:
	@tests/run

lib: $(LIB)
	@:

# The kit proves what has changed, and builds only what is proved; each crate is told as it is proved.
$(LIB): $(SOURCES)
	@scripts/prove lib sheet_c
	@mkdir -p $(@D)
	@cp crates/sheet_c/out/libsheet_c.a $@

# What is told meanwhile goes to standard error, so that only what the program prints is on standard output.
$(PROGRAM) $(TRIAL) $(TABLE): $(SOURCES)
	@scripts/prove run $(@F) >&2
	@touch $@

host: lib
	@mkdir -p build
	gcc -std=c99 -O2 -Iinclude examples/host.c $(LIB) -o build/host
	@build/host

table: $(TABLE)
	@$(TABLE)

find: lib
	@mkdir -p build
	gcc -std=c99 -O2 -Iinclude examples/find.c $(LIB) -o build/find
	@build/find $(N1) $(N2) $(B1) $(B2) $(T) $(MOST)

install: lib
	install -d $(DESTDIR)$(PREFIX)/lib/pkgconfig $(DESTDIR)$(PREFIX)/include
	install -m 644 $(LIB) $(DESTDIR)$(PREFIX)/lib/libsheet.a
	install -m 644 include/sheet.h $(DESTDIR)$(PREFIX)/include/sheet.h
	sed 's|@PREFIX@|$(PREFIX)|' include/sheet.pc.in > $(DESTDIR)$(PREFIX)/lib/pkgconfig/sheet.pc

bench: lib
	$(if $(BEFORE),tests/before $(BEFORE))
	cd tests && SHEET_LIB_DIR=$(CURDIR)/target/staticlib SHEET_BEFORE_DIR=$(CURDIR)/build/before \
	    cargo run --release --offline --quiet $(if $(BEFORE),--features before) --bin bench

clean:
	rm -rf target build crates/*/out
