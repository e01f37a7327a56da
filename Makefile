# The names to try first. Each runs scripts that can be run by themselves.
.PHONY: all help test clean install uninstall release prove twins dist bench docs
.DEFAULT_GOAL = all
ifneq ($(shell { bash -c 'echo yes'; } 2>/dev/null),yes)
$(error the scripts that make runs need bash, which is not on the PATH)
endif

# The folders have the names of the GNU coding standards; tools/install_programs.sh has the usual ones of prefix for those
# that are not given: bindir, mandir and others. CC, CFLAGS, CPPFLAGS, LDFLAGS and AR are used if they are set, as an
# argument or in the environment.
prefix = /usr/local
exec_prefix = $(prefix)
libdir = $(exec_prefix)/lib
includedir = $(prefix)/include
export prefix exec_prefix
# The programs to install; PROGRAM_PREFIX is put before their names. A file of somebody else is never replaced, such as
# coreutils' b2sum in /usr/bin.
PROGRAMS = b2 b2sum
# With LIBB2_SHARED=1 the library has libb2.so.1 too, in a folder of its own (c/PORTING.md).

needs_absolute = $(if $(filter /%,$(prefix)),,$(error prefix must be an absolute path))
of_library = env INCLUDEDIR="$(includedir)" LIBDIR="$(libdir)" c/install.sh
# What is built, and what it is built from.
built = out/make
code = $(wildcard c/*.[ch] c/*.map c/*/*.[ch] c/include/libb2/* c/include/reference/* c/*.sh dist/MANIFEST dist/*.[hS] dist/*/*.[sc] dist/*/*.inc)

# What is asked for of the compiler, if anything is. All is built again if that was another.
quote = '$(subst ','\'',$(1))'
words = $(foreach name,CC AR CPPFLAGS CFLAGS LDFLAGS LIBB2_SHARED,$(if $(filter-out default undefined,$(origin $(name))),$(name)=$($(name))))
$(built)/words: $(if $(strip $(words)),$(shell [ "`cat $(built)/words 2>&1`" = $(call quote,$(words)) ] || echo again))
	mkdir -p $(built)
	printf '%s\n' $(call quote,$(words)) >$@

# A hash of all this. All is built again if it was another, since a file that is unpacked or copied over another may be
# older than what was built.
hash := $(shell cat $(PROGRAMS) tools/launcher.sh $(code) | { sha256sum || shasum -a 256; } 2>&1)
$(built)/hash: $(shell [ "`cat $(built)/hash 2>&1`" = '$(hash)' ] || echo again)
	mkdir -p $(built)
	echo '$(hash)' >$@

.PHONY: again
again:

all: $(PROGRAMS:%=$(built)/%) $(built)/lib/kind ## build b2, b2sum and the C library in out/make

help: ## list these names
	@sed -n "s/^\([a-z]*\):.*## /make \1	/p" Makefile

$(PROGRAMS:%=$(built)/%): $(built)/%: % tools/launcher.sh $(code) $(built)/words $(built)/hash
	./$* --build $@

$(built)/lib/kind: $(code) $(built)/words $(built)/hash
	c/install.sh $(if $(LIBB2_SHARED),--libb2-shared) --build $(built)/lib

install: all ## install b2, b2sum, their man pages and completions, and the C library in prefix
	$(needs_absolute)tools/install_programs.sh $(built) $(PROGRAMS)
	$(of_library) --built $(built)/lib "$(prefix)"

uninstall: ## remove what `make install` has installed
	$(needs_absolute)tools/install_programs.sh --uninstall $(PROGRAMS)
	$(of_library) --uninstall "$(prefix)"

test: ## test everything that needs no proof, over the code in dist/
	./test

clean: ## remove what was built
	rm -rf out

# The small systems that a release is tried in, of packaging/roots.txt.
ROOTS = --all
release: ## make the artifacts of a release in out/release, and test each of them and ./test on small systems
	tools/release.sh
	tests/roots.sh $(ROOTS)

prove: ## prove every crate, compare dist/ with the proofs, and test everything (needs rt)
	./test --prove

twins: ## write the files of BLAKE2s from those of BLAKE2b
	tools/twins.py
	tools/dist.sh sums

dist: ## write dist/, the code that the proofs build, and js/src/wasm*.js (needs rt and node)
	tools/dist.sh make
	js/tools/build.mjs
	tools/dist.sh sums

bench: ## measure speed next to other libraries
	bench/speed.py

docs: ## write docs/reference/, the man pages and the numbers in pages, and test all pages
	tools/reference.py
	tests/page_numbers.py --write
	tools/manual.py
	tests/pages.py
