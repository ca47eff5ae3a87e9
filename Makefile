# v7: see README.md. The command `rt` of the Rattle kit has to be on the PATH, but for what needs no kit.
#
#: make                       proves and builds the five programs into build/                              kit          20 minutes
#: make quick                 compiles them and libv7 without proof into build/quick, shows a session       kit, cc      3 minutes
#: make lib wheel             proves and builds libv7, and makes its wheel of Python                       kit          20 minutes
#: make dist                  makes the packages of a release in dist/                                     kit          25 minutes
#: make page                  makes build/v7.html, the page, with the proved libv7 for a browser           tools/needs  20 minutes
#: make install               `make install-lib` and `make uninstall` too: what was built, or FROM=build/quick; `make clean` removes it
#:
#: make which CHANGED=PATH    which tests and crates a change concerns; or SINCE=COMMIT                    Python       seconds
#: make check-text            texts, names, limits and quotes, compared with the code                      Python       1 minute
#: make test                  cases and tests with programs that are not proved                            kit          5 minutes
#: make gate                  proves everything, and tries the wrong bodies of must-fail/                  kit          50 minutes
#: make check                 all that CI runs: the gate, and tests of the proved programs                 tools/needs  60 minutes
#: make check-all             this, all wrong bodies, recheck, planted bugs, the page and the release      tools/needs  4.5 hours
#: make check-wrong-bodies    has the prover refuse those of changed crates, or of NAMES=CRATE              kit          to 2 hours
#: make planted               plants BUGS=NAME, or all, and sees that tests find them                      kit          25 minutes
#: make demo                  proves v7, and shows a session and a link with it                            kit          10 minutes
#: make recheck               proves two claims again, and shows how broken lines are refused             kit          6 minutes
#: make measure               edges that tests reach, mutants that they notice, and libFuzzer on libv7      tools/needs  40 minutes
#: make bench                 counts instructions, times and memory                                        valgrind     5 minutes
#: make help                  shows this. `python3 -m tests list` names each test of a tier, `python3 -m tests NAME` runs it
PREFIX ?= /usr/local

# the kit, and before it one that proved earlier sources; `any` is for another one
KITS ?= rattle-kit-13b rattle-kit-13f
# what proves and compiles nothing
LIGHT := check-text clean help uninstall which
ifneq ($(filter-out $(LIGHT) install install-lib,$(or $(MAKECMDGOALS),all)),)
ifneq ($(shell sh tools/kit.sh $(KITS) && echo yes),yes)
$(error stopped)
endif
endif

# tools/prove.py uses all processors by itself
.NOTPARALLEL:
# no built-in rule: the host's `as` would make objects of examples/*.s
.SUFFIXES:
.SECONDEXPANSION:
.PHONY: all quick lib wheel dist page install install-lib uninstall clean help which check-text test gate check check-all \
	check-wrong-bodies planted demo recheck measure bench build/quick/liblibv7.a

PROGRAMS := $(addprefix build/,v7 v7-from-gnu v7-object v7-explain v7-origin)
all: $(PROGRAMS)

# a proved program, which `make gate` leaves too, at the same place
$(PROGRAMS): build/%: crates/$$(subst -,_,$$*)/out/$$(subst -,_,$$*)
	mkdir -p build
	cp $< $@

# tools/prove.py proves a crate with the libraries under it, side by side where none waits for another, and builds it
ifneq ($(filter-out $(LIGHT),$(or $(MAKECMDGOALS),all)),)
crate_of = $(word 2,$(subst /, ,$@))
PROVED := $(foreach crate,v7 v7_from_gnu v7_object v7_explain v7_origin,crates/$(crate)/out/$(crate)) crates/libv7/out/liblibv7.a
$(PROVED): crates.txt $$(shell python3 -m tools.prove --sources $$(crate_of))
	python3 -m tools.prove $(crate_of) $@
	touch $@
endif

# the linker as a library, for C and for what can call C: include/v7.h. Of the C library it calls no more than `malloc`,
# `realloc` and `free`, through an object of the kit's c/liblibc_c.a. Both libraries hold that object, and show only the calls of
# v7.h
VERSION := $(shell sed -n 's/^.define V7_VERSION "\(.*\)"/\1/p' include/v7.h)
SONAME := libv7.so.0
SOFILE := $(SONAME).$(VERSION)
LIBDIR ?= $(PREFIX)/lib
INCLUDEDIR ?= $(PREFIX)/include
OBJCOPY ?= objcopy
KIT = $(dir $(shell rt doc))

lib: build/libv7.a build/libv7.so

# where it is: proved, and as `make quick` leaves it
PLACES := build build/quick
build/libv7.a: crates/libv7/out/liblibv7.a
build/quick/libv7.a: build/quick/liblibv7.a
$(PLACES:=/libv7.a):
	mkdir -p $(@D)
	rm -f $@
	$(LD) -r -o $(@D)/libv7.o --whole-archive $< --no-whole-archive $(KIT)c/liblibc_c.a
	$(OBJCOPY) --wildcard --keep-global-symbol='v7_*' $(@D)/libv7.o
	$(AR) rcsD $@ $(@D)/libv7.o
	rm $(@D)/libv7.o

$(PLACES:=/$(SOFILE)): %/$(SOFILE): %/libv7.a packaging/libv7.map
	$(CC) $(CFLAGS) $(LDFLAGS) -shared -o $@ -Wl,-soname,$(SONAME) -Wl,--version-script=packaging/libv7.map -Wl,-z,defs \
		-Wl,--whole-archive $< -Wl,--no-whole-archive

# no symbolic links, as the gate refuses them
$(PLACES:=/libv7.so): %/libv7.so: %/$(SOFILE)
	ln -f $< $(@D)/$(SONAME)
	ln -f $< $@

# the libraries, the headers, what pkg-config reads, the manual page, and the documents that the header cites; no program is needed.
# FROM=build/quick installs what is not proved
STAGE := build/stage
FROM ?= build
install-lib: $(FROM)/libv7.so
	rm -rf $(STAGE)
	mkdir -p $(STAGE)$(LIBDIR)/pkgconfig $(STAGE)$(INCLUDEDIR) $(STAGE)$(PREFIX)/share/man/man3
	cp $(FROM)/libv7.a $(FROM)/$(SOFILE) $(STAGE)$(LIBDIR)
	ln -sf $(SOFILE) $(STAGE)$(LIBDIR)/$(SONAME)
	ln -sf $(SONAME) $(STAGE)$(LIBDIR)/libv7.so
	cp include/v7.h $(STAGE)$(INCLUDEDIR)
	sed -e 's|@PREFIX@|$(PREFIX)|' -e 's|@LIBDIR@|$(LIBDIR)|' -e 's|@INCLUDEDIR@|$(INCLUDEDIR)|' -e 's|@VERSION@|$(VERSION)|' \
		packaging/v7.pc.in >$(STAGE)$(LIBDIR)/pkgconfig/v7.pc
	cp man/*.3 $(STAGE)$(PREFIX)/share/man/man3
	python3 packaging/installed.py library $(STAGE)$(PREFIX)/share/doc/v7
	python3 packaging/installed.py copy $(STAGE) '$(DESTDIR)' $(PREFIX)
	rm -rf $(STAGE)

# the wheel of Python, with the library inside
wheel: lib
	python3 packaging/python/backend.py build

# the release: packages of what was proved and built, in dist. They name the verdict of each crate, which the gate does not leave
dist:
	rm -f build/gated
	python3 packaging/dist.py

# all as a release has it, but unproved. What has not changed is not compiled again
build/quick/liblibv7.a:
	@python3 -m tools.sketch $(@D)

quick: build/quick/libv7.so
	@V7_BUILD=build/quick python3 -m tests.programs.demo
	@echo 'build/quick has the programs, libv7.so and libv7.a. Nothing of this is proved: make and make lib prove it.'
	@echo 'next: the lines after it in README.md'

demo: build/v7
	@python3 -m tests.programs.demo
	@echo 'Each function of build/v7 is proved. next: make, which proves the other programs; docs/TUTORIAL.md'

# the page: one file with the linker, compiled for WebAssembly from the module of the proved libv7, and the objects and lessons of
# examples/. `make build/quick/v7.html` makes it of what `make quick` compiles. It takes Debian's binaryen: without it the rest is built
PAGE := $(if $(shell command -v wasm-opt),v7.html)
page: $(PAGE:%=build/%)
	$(if $(PAGE),,@echo 'make page needs wasm-opt, of the Debian package binaryen'; exit 1)

build/v7.wasm: crates/libv7/out/liblibv7.a
	python3 -m tools.module $@
build/quick/v7.wasm: build/quick/liblibv7.a
	python3 -m tools.module --quick $@
$(PLACES:=/v7.wasm): tools/module.py packaging/heap.c page/session.js
$(PLACES:=/v7.html): %/v7.html: %/v7.wasm packaging/page.py include/v7.h \
		$(wildcard page/* examples/*.o examples/*/*.o examples/lessons.txt examples/*/lessons.txt)
	python3 packaging/page.py $< $@

help:
	@sed -n 's/^#: \{0,1\}//p' Makefile

which:
	@SINCE=$(SINCE) python3 -m tests which $(CHANGED)

check-text:
	@python3 -m tests text

# a pass proves nothing
test:
	@python3 -m tests test

# every proof from nothing, the wrong bodies of must-fail/, the tests, the programs' stored runs. A check takes up to 4 GB. If there are 5
# for each processor, each has a crate; else rt decides, and counts on 5 to 7
gate:
	RT_JOBS=$${RT_JOBS:-$$(awk -v n=$$(nproc) '$$1 == "MemAvailable:" && $$2 > n * 5e6 { print n }' /proc/meminfo)} rt ci
	mkdir -p build
	touch build/gated

# the cheapest first, so that a fault shows early. The gate leaves the programs that the tests of `check` run. Beside these, wrong bodies
# of crates that have changed are tried, for 15 minutes. A minute before V7_CI_SECONDS are over it names what is left out, and fails
check:
	@MINUTES=15 python3 -m tests parts 'make test' 'make gate' 'make all lib $(PAGE:%=build/%)' \
		'make check-wrong-bodies & python3 -m tests check; status=$$?; wait $$! && exit $$status' $(MORE)

# all wrong bodies, in place of those of crates that have changed, and without a limit of time
check-all:
	@V7_CI_SECONDS=$${V7_CI_SECONDS:-0} $(MAKE) check NAMES=all MORE="'python3 -m tests all' 'make planted'"

# those of the crates that have changed since theirs were refused, by tests/wrong_bodies/wrong-bodies.seen; or all, or those of the crates
# NAMES. After MINUTES those left are named
check-wrong-bodies:
	python3 -m tests.wrong_bodies.wrong_bodies $(or $(filter-out all,$(NAMES)),$(if $(NAMES),,-c $(if $(MINUTES),-m $(MINUTES))))

# the bugs of tests/cases/PLANTED.md, each alone, as many side by side as there are processors
planted:
	python3 -m tests.cases.planted $(BUGS)

recheck:
	@sh tools/recheck.sh

# at night, and not in CI
measure:
	@python3 -m tests.measure.measure $(PARTS)

bench: build/v7 build/v7-explain build/v7-from-gnu build/v7-object
	python3 -m tests.costs.heavy
	python3 -m tests.costs.room
	python3 -m tests.costs.scaling

# the programs, and what the package v7 has besides; uninstall takes away what install and install-lib have put there
$(PROGRAMS:build/%=build/quick/%): build/quick/liblibv7.a ;
install: $(PROGRAMS:build/%=$(FROM)/%) $(PAGE:%=$(FROM)/%)
	rm -rf $(STAGE)
	python3 packaging/installed.py put $(FROM) $(STAGE)$(PREFIX)
	python3 packaging/installed.py copy $(STAGE) '$(DESTDIR)' $(PREFIX)
	rm -rf $(STAGE)

uninstall:
	python3 packaging/installed.py remove $(PREFIX)

clean:
	rm -rf build dist
