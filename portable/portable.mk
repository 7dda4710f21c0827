# The library as one C file, for the Makefile above: portable/spargolutta.c is kept, and what is made of it is in
# target/portable and target/wasm.
.PHONY: c-check

C_FILE := portable/spargolutta.c
C_LIB := target/portable
CFLAGS ?= -O3

# The MIR of the proved crates, which the archive's build leaves in target/mir, and of the toolchain's own library.
MIR = target/mir $$(dirname "$$(dirname "$$(readlink -f "$$(command -v rt)")")")/rlibs

# Anew from the MIR.
c: $(ARCHIVE)
	@mkdir -p $(C_LIB)
	@python3 portable/mir2c include/spargolutta.h $(MIR) > $(C_LIB)/spargolutta.c
	@cp $(C_LIB)/spargolutta.c $(C_FILE)

# The kept file is what `make c` makes.
c-check: $(ARCHIVE)
	@mkdir -p $(C_LIB)
	@python3 portable/mir2c include/spargolutta.h $(MIR) > $(C_LIB)/spargolutta.c
	@cmp $(C_LIB)/spargolutta.c $(C_FILE) \
	|| { echo "$(C_FILE) is not what 'make c' makes of the proved crates." >&2; exit 1; }

# With the C compiler alone: no Rattle is needed.
lib-c: $(C_LIB)/libspargolutta.a $(C_LIB)/libspargolutta.so

$(C_LIB)/spargolutta.o: $(C_FILE) include/spargolutta.h
	@mkdir -p $(@D)
	@$(CC) $(CFLAGS) -std=c99 -fPIC -Iinclude -c $(C_FILE) -o $@

$(C_LIB)/libspargolutta.a: $(C_LIB)/spargolutta.o
	@rm -f $@
	@$(AR) rcs $@ $<

$(C_LIB)/libspargolutta.so: $(C_LIB)/spargolutta.o packaging/spargolutta.map
	@$(CC) $(CFLAGS) -shared -o $@ -Wl,-soname,libspargolutta.so.$(MAJOR) \
		-Wl,--version-script=packaging/spargolutta.map -Wl,-z,defs $<

# The program with a plain C main.
bin-c: $(C_LIB)/zone_judge

$(C_LIB)/zone_judge: portable/zone_judge.c $(C_LIB)/libspargolutta.a
	@$(CC) $(CFLAGS) -std=c99 -Iinclude portable/zone_judge.c $(C_LIB)/libspargolutta.a -o $@

# WebAssembly: the library, which imports nothing, and the digest, which imports it.
WASM := target/wasm
WASM_CC := clang --target=wasm32 -std=c99 -O3 -fno-unroll-loops -ffreestanding -mbulk-memory -Iinclude
wasm: $(WASM)/spargolutta.wasm $(WASM)/digest.wasm

$(WASM)/spargolutta.wasm: $(C_FILE) include/spargolutta.h
	@mkdir -p $(@D)
	@$(WASM_CC) -c $(C_FILE) -o $(WASM)/spargolutta.o
	@wasm-ld --no-entry --stack-first -z stack-size=262144 --gc-sections --strip-all --export=__heap_base \
		$$(python3 portable/mir2c --exports include/spargolutta.h | sed 's/^/--export=/') $(WASM)/spargolutta.o -o $@

# From 4 MiB on, above the library's data and stack.
$(WASM)/digest.wasm: $(wildcard portable/digest/*) include/spargolutta.h
	@mkdir -p $(@D)
	@python3 portable/digest/rows.py include/spargolutta.h > $(WASM)/rows.c
	@for file in $(WASM)/rows portable/digest/zones portable/digest/rounds portable/digest/digest; do \
		$(WASM_CC) -Iportable/digest -c $$file.c -o $(WASM)/$$(basename $$file).o; done
	@wasm-ld --no-entry --import-memory --allow-undefined --global-base=4194304 -z stack-size=262144 --strip-all \
		--export=digest_text $(addprefix $(WASM)/,rows.o zones.o rounds.o digest.o) -o $@

# Tests that ask the programs, the installed files or the compiled archive itself.
NOT_OF_C := install:: program:: charts:: portable:: which_harbour:: importer:: multiplications

# Where clang has no WebAssembly or there is no wasm-ld, the comparison says that it is missing.
digest: $(ARCHIVE)
	@if command -v clang > /dev/null && command -v wasm-ld > /dev/null; then $(MAKE) --no-print-directory wasm; \
		if command -v node > /dev/null; then node portable/wasm/test.mjs; fi; fi
	@python3 portable/digest/compare.py

# The digest on all machines; Debian's packages qemu-user and gcc-{arm,aarch64,riscv64,s390x,i686}-linux-gnu*.
cross: $(ARCHIVE) wasm
	@python3 portable/digest/compare.py --cross

# Wrong translators: each has to be noticed by the digest.
mutants: $(ARCHIVE)
	@python3 portable/mutants.py
