# The command, its page and its tests, for the Makefile above.
.PHONY: octant-check

# The main job on the sample, from maps to verdicts and a page: by a C compiler and Python alone. With clang and wasm-ld
# the library is in the page too.
run: $(C_LIB)/libspargolutta.so $(PAGE_WASM)
	@SPARGOLUTTA_LIBRARY='$(CURDIR)/$<' sample/run

# The proved program on document 01's octant.
octant: bin
	@cd sample/octant && ../../$(PROGRAM) < queries

octant-check: bin
	@diff <($(MAKE) --no-print-directory octant) <(printf '%s\n' '1 0 0' '3 0 0' '2 0 1' '18 0 0')

# No package is needed: where numpy or Chromium is missing, a line says so. FUZZ is for how many seconds mutated samples
# are tried.
FUZZ ?= 60
tool-test: lib $(PAGE_WASM)
	@cd python && SPARGOLUTTA_LIBRARY='$(CURDIR)/$(SHARED)' FUZZ=$(FUZZ) $(PYTHON) -m unittest discover -s tests -t .
