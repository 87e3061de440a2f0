# Proves, builds, tests, installs and packs the programs and the library for C. `make help` lists the targets.
MAKEFLAGS += -rR --no-print-directory
.SHELLFLAGS = -euc
.ONESHELL:
.SILENT:
.NOTPARALLEL:# a proof takes all processors
.SECONDEXPANSION:

PREFIX = /usr/local
DESTDIR =
BINDIR = $(PREFIX)/bin
LIBDIR = $(PREFIX)/lib
INCLUDEDIR = $(PREFIX)/include
MANDIR = $(PREFIX)/share/man
LIST = examples/first.obf
# The level of processors to build for: by default the best one that this machine has.
CPU := $(shell /lib64/ld-linux-x86-64.so.2 --help 2>&1 | grep -q 'x86-64-v3 .supported' && echo x86-64-v3 || echo x86-64-v2)
tell = 2# the descriptor to which a build reports its progress

levels = x86-64-v2 x86-64-v3
programs = ffosolve ffoscores
scripts = ffosolve-many ffosolve-games
exported = ffosolve_*
version := $(firstword $(subst .dev, ,$(subst +, ,$(file <VERSION))))# VERSION has more in it before a release, and in what `make deb` packs
major := $(firstword $(subst ., ,$(version)))

$(if $(filter $(levels),$(CPU)),,$(error CPU is $(CPU), but has to be one of: $(levels)))
$(if $(filter /%,$(PREFIX)),,$(error PREFIX is $(PREFIX), but has to begin with a slash))

all: tools $(programs:%=out/%) library ## proves and builds the programs and the library for C, and prints their SHA-256
	sha256sum $(programs:%=out/%) $(library)
	echo "built: $(programs:%=out/%), which bin/ runs; out/library; all of version $(package)"

# What rt makes. scripts/prove compares the sources with those that it was made from.
level = $(notdir $(@D))
objects := $(foreach level,$(levels),$(programs:%=out/$(level)/%.o))
crate_tests = out/$(CPU)/crate_tests_tests

$(objects) $(levels:%=out/%/libffosolve_c.a) $(crate_tests): always
	exec scripts/prove $@ $(tell)

# What is linked from what rt makes. Each file is first written under a name of its own: another make may be running.
kit = $$(dirname "$$(rt doc)")
new = $@.$$$$

$(objects:.o=): %: %.o packaging/level.s
	"$(kit)/toolchain/bin/clang" -Wa,-defsym,LEVEL=$(level:x86-64-v%=%) -c -o $(new).o packaging/level.s
	said=$$("$(kit)/bin/rattle-link" --target x86_64-unknown-linux-gnu --toolchain "$(kit)/toolchain" -o $(new) \
	    $< $(new).o "$(kit)/c/libos_c.a" "$(kit)/c/liblibc_c.a" 2>&1) || { echo "$$said" >&2; exit 1; }
	rm $(new).o
	mv -f $(new) $@

# The library as one object, with the kit's malloc and free. It exports only the functions of the header.
$(levels:%=out/%/libffosolve.o): out/%/libffosolve.o: out/%/libffosolve_c.a
	ld -r -o $(new).o --whole-archive $< --no-whole-archive "$(kit)/c/liblibc_c.a"
	objcopy --wildcard --keep-global-symbol='$(exported)' $(new).o $(new)
	rm $(new).o
	mv -f $(new) $@

$(levels:%=out/%/libffosolve.a): %.a: %.o
	ar rcsD $(new) $<
	mv -f $(new) $@

$(levels:%=out/%/libffosolve.so): %.so: %.o VERSION
	echo 'FFOSOLVE_$(major) { global: $(exported); };' | cc -shared -Wl,--version-script=/dev/stdin -o $(new) $< \
	    -Wl,-soname,libffosolve.so.$(major),-z,defs,-z,relro,-z,now,-z,$(level)
	mv -f $(new) $@

# Copies for CPU: the programs that bin/ runs, and the library for programs under development. The shared library is
# there twice, since rt refuses a checkout with a link.
library = $(addprefix out/library/libffosolve.,a so so.$(major))
$(programs:%=out/%) $(library): out/$(CPU)/$$(patsubst %.$(major),%,$$(@F)) always
	cmp -s $< $@ || { mkdir -p $(@D) && cp $< $(new) && mv -f $(new) $@; }

# $(call fill,FILE,TO) copies FILE to TO and fills in the version, the size of the largest table, and folders. Blanks in
# the folders that pkg-config reads need a backslash.
number = $(shell echo $(version) | awk -F . '{ print 10000 * $$1 + 100 * $$2 + $$3 }')
constant = $(shell awk -F '[ ;]+' '/const $1:/ { print $$(NF - 1) }' $2)
entries = $(call constant,MOST_ENTRIES,crates/bound_table/src/bound_table.rt)
fill = sed -e 's/@VERSION@/$(version)/g; s/@NUMBER@/$(number)/g; s/@MAJOR@/$(major)/g; s/@ENTRIES@/$(subst _,,$(entries))/g' \
    -e "s|@BINDIR@|$(BINDIR)|g; s|@LIBDIR@|$(LIBDIR)|; s|@INCLUDEDIR@|$(INCLUDEDIR)|; /^[a-z]*dir=/s/ /\\\\ /g" \
    -e "s|@INCLUDE@|$$(realpath -ms --relative-to='$(LIBDIR)' '$(INCLUDEDIR)')|g" $1 | install -D -m 644 /dev/stdin $2

# After a change of the version or of the largest table, libffosolve.so is newer than the header.
out/library/ffosolve.h: include/ffosolve.h.in out/$(CPU)/libffosolve.so
	$(call fill,$<,$(new))
	mv -f $(new) $@

library: $(library) out/library/ffosolve.h ## builds libffosolve.a, libffosolve.so and ffosolve.h in out/library

# Both levels of everything, for tests and packages.
libraries = $(foreach level,$(levels),out/$(level)/libffosolve.a out/$(level)/libffosolve.so)
levels: $(programs:%=out/%) library $(objects:.o=) $(libraries)

comma = ,
settings = crates/program_settings/src/*.rt
constants: empties = $(call constant,DEFAULT_EMPTIES,$(settings))
constants: workers = $(call constant,DEFAULT_WORKERS,$(settings))
constants: table = $(call constant,DEFAULT_ENTRIES,$(settings))
constants: ## writes the version, the size of the largest table and the defaults of options where they are repeated
	sed -i -E 's/^(pub const VERSION: &str = ").*"/\1$(version)"/; s/^(pub const VERSION_NUMBER: .* = ).*;/\1$(shell echo $(number) | sed 's/...$$/_&/');/' $(settings)
	sed -i -E -e 's/^(pub const DEFAULT_EMPTIES_TEXT: &str = ").*"/\1$(empties)"/' \
	    -e 's/^(pub const DEFAULT_WORKERS_TEXT: &str = ").*"/\1$(workers)"/' \
	    -e 's/^(pub const DEFAULT_ENTRIES_TEXT: &str = ").*"/\1$(subst _,,$(table))"/' $(settings)
	sed -i -E 's/^(version = ").*"/\1$(version)"/' rust/Cargo.toml
	sed -i -E -e 's/(MOST_ENTRIES(: usize)? = )[0-9_]+/\1$(entries)/' \
	    -e 's/(max_empties: int = |DEFAULT_EMPTIES = |DEFAULT_EMPTIES: usize = |takes positions with up to )[0-9]+/\1$(empties)/' \
	    python/src/ffosolve/__init__.py python/src/ffosolve/_library.py python/src/ffosolve/_solvers.py python/src/ffosolve/_command_line.py \
	    rust/src/solvers.rs README.md
	sed -i -E -e 's/(has at most )[0-9,]+( entries)/\1$(subst _,$(comma),$(entries))\2/; s/( empties, limit )[0-9]+/\1$(empties)/' \
	    -e 's/(0 to 60 .default: )[0-9]+/\1$(empties)/; s/(reports stay the same .default: )[0-9]+/\1$(workers)/' \
	    -e 's/(32 bytes each .default: )[0-9]+/\1$(subst _,,$(table))/' \
	    docs/user-guide.md examples/kinds.report examples/kinds.scores

has_rt = command -v rt >/dev/null || { echo 'rt (rattle-kit-13b or rattle-kit-13f) is not on the path' >&2; exit 4; }
look: export list = $(LIST)
look: ## solves examples/first.obf in about a minute, with nothing proved; LIST=FILE: another small list
	$(has_rt)
	list=$$(realpath -e -- "$$list")
	cd crates/ffosolve
	exec 3>&1
	said=$$(rt try --data "list.obf=$$list" -- list.obf </dev/null 2>&1 >&3) && status=0 || status=$$?
	case $$said in
	*'run=ended '*) echo 'this proved nothing: bin/ffosolve proves the program before it first runs it' ;;
	*) echo "$$said" | tail -n 3 >&2; exit 4 ;;
	esac
	exit "$$status"

TESTS =
check: commands = git:git
check: modules = psutil pytest pytest-timeout pytest-xdist
check: tools levels $(crate_tests) ## tests everything; the last line counts what passed. TESTS='-k books': arguments for pytest
	exec env -u MAKEFLAGS -u MFLAGS -u MAKELEVEL $(python) -m pytest -n auto --durations 20 $(TESTS)

# PYTHON or, if it is not set, the first of two commands that has `modules`; if neither has them, Debian's.
has = -c 'import sys; from importlib.metadata import version; [*map(version, sys.argv[1:])]'
python = $(or $(PYTHON),$(shell for each in python3 /usr/bin/python3; do $$each $(has) $(modules) 2>/dev/null && break; done; echo $$each))

# Names the tools that are missing before anything is proved.
tools:
	$(has_rt)
	packages='' python="$(python)"
	lacks() { echo "$$1; Debian's package $$2 has it$${3-}" >&2; packages="$$packages $$2"; }
	for need in cc:build-essential ld:binutils flock:util-linux $(commands); do
	    command -v "$${need%:*}" >/dev/null || lacks "$${need%:*} is missing" "$${need#*:}"
	done
	for need in $(modules); do
	    "$$python" $(has) "$$need" 2>/dev/null || lacks "$$python has no $$need" "python3-$$need" ' for /usr/bin/python3'
	done
	[ -z "$$packages" ] || { echo "apt-get install$$packages" >&2; exit 4; }

# The first lines of install and uninstall. The command `install` makes a new file in place of an old one, so a running
# program keeps its own.
places = bin="$(DESTDIR)$(BINDIR)" lib="$(DESTDIR)$(LIBDIR)" include="$(DESTDIR)$(INCLUDEDIR)" man="$(DESTDIR)$(MANDIR)" \
    share="$(DESTDIR)$(PREFIX)/share"
documents = README.md LICENSE CHANGELOG.md $(wildcard PROVED) \
    $(shell find docs examples python rust crates/*/specs \( -name __pycache__ -o -name '.*' -o -name target -o -name Cargo.lock \) -prune -o -type f -print)

# Completions call the installed program for its --help, so TAB after bin/ffosolve in a checkout builds nothing.
install: $(programs:%=out/$(CPU)/%) $(libraries) ## installs programs, library, manual pages, completions and documents under PREFIX (/usr/local), in DESTDIR
	$(places)
	install -D -t "$$bin" $(programs:%=out/$(CPU)/%)
	package=$$(realpath -ms --relative-to='$(BINDIR)/..' '$(PREFIX)/share/ffosolve')
	library=$$(realpath -ms --relative-to='$(BINDIR)/..' '$(LIBDIR)/libffosolve.so')
	for name in $(scripts); do
	    sed "s|share/ffosolve|$$package|; s|lib/libffosolve.so|$$library|" bin/$$name | install -m 755 /dev/stdin "$$bin/$$name"
	done
	for program in $(programs:%=out/$(CPU)/%) $(scripts:%=bin/%); do
	    name=$${program##*/}
	    said=$$(COLUMNS=80 "$$program" --help) || echo "$$name: its manual page has no options, since --help can't be run" >&2
	    echo "$$said" | awk -v program="$$name" -v programs="$(scripts) $(programs)" -f share/man/page.awk | $(call fill,/dev/stdin,"$$man/man1/$$name.1")
	    $(call fill,share/completions/bash,"$$share/bash-completion/completions/$$name")
	    $(call fill,share/completions/zsh,"$$share/zsh/site-functions/_$$name")
	    $(call fill,share/completions/fish,"$$share/fish/vendor_completions.d/$$name.fish")
	done
	rm -rf "$$share/doc/ffosolve" "$$share/ffosolve"
	umask 022
	mkdir -p "$$share/doc/ffosolve" "$$share/ffosolve"
	cp --parents --no-preserve=mode -t "$$share/doc/ffosolve" $(documents)
	# The commands of the documents are those on the path, except in a fresh checkout, which `First use` is about.
	sed -i -E '/^## First use/,/^## /!s,(^|[^/])\bbin/ffos,\1ffos,g' "$$share/doc/ffosolve/README.md" "$$share/doc/ffosolve"/docs/*.md
	# The package for Python that the scripts use is among the documents, too, but some systems leave these out.
	cp --parents --no-preserve=mode -t "$$share/ffosolve" $(filter python/src/%,$(documents))
	echo '$(package)' | tee "$$share/doc/ffosolve/VERSION" >"$$share/ffosolve/VERSION"
	rm -f "$$lib"/libffosolve.so* "$$lib"/glibc-hwcaps/x86-64-v3/libffosolve.so*
	install -D -m 644 out/x86-64-v2/libffosolve.a "$$lib/libffosolve.a"
	install -D -m 644 out/x86-64-v3/libffosolve.a "$$lib/libffosolve-x86-64-v3.a"
	install -D -m 644 out/x86-64-v2/libffosolve.so "$$lib/libffosolve.so.$(version)"
	install -D -m 644 out/x86-64-v3/libffosolve.so "$$lib/glibc-hwcaps/x86-64-v3/libffosolve.so.$(version)"
	for folder in "$$lib" "$$lib/glibc-hwcaps/x86-64-v3"; do
	    ln -s libffosolve.so.$(version) "$$folder/libffosolve.so.$(major)"
	    ln -s libffosolve.so.$(major) "$$folder/libffosolve.so"
	done
	$(call fill,include/ffosolve.h.in,"$$include/ffosolve.h")
	for file in pkgconfig/ffosolve.pc cmake/ffosolve/ffosolve-config.cmake cmake/ffosolve/ffosolve-config-version.cmake; do
	    $(call fill,packaging/$${file##*/}.in,"$$lib/$$file")
	done
	echo "installed under $(DESTDIR)$(PREFIX)"

uninstall: ## removes what make install installed, and folders that are then empty
	$(places)
	for name in $(programs) $(scripts); do
	    rm -f "$$bin/$$name" "$$man/man1/$$name.1" "$$share/bash-completion/completions/$$name" \
	        "$$share/zsh/site-functions/_$$name" "$$share/fish/vendor_completions.d/$$name.fish"
	done
	rm -f "$$lib"/libffosolve.* "$$lib/libffosolve-x86-64-v3.a" "$$lib"/glibc-hwcaps/x86-64-v3/libffosolve.* \
	    "$$lib/pkgconfig/ffosolve.pc" "$$include/ffosolve.h"
	rm -rf "$$share/doc/ffosolve" "$$share/ffosolve" "$$lib/cmake/ffosolve"
	# System folders stay, even if they are empty.
	$(if $(filter /usr /usr/local,$(PREFIX)),:,rmdir --ignore-fail-on-non-empty 2>/dev/null) "$$bin" \
	    "$$lib/glibc-hwcaps/x86-64-v3" "$$lib/glibc-hwcaps" "$$lib/pkgconfig" "$$lib/cmake" "$$lib" "$$include" \
	    "$$man/man1" "$$man" "$$share/bash-completion/completions" "$$share/bash-completion" "$$share/zsh/site-functions" \
	    "$$share/zsh" "$$share/fish/vendor_completions.d" "$$share/fish" "$$share/doc" "$$share" "$(DESTDIR)$(PREFIX)" || :
	echo "uninstalled from $(DESTDIR)$(PREFIX)"

include packaging/packages.mk

help: ## lists the targets
	sed -n 's/^\([a-z-]*\):.*## /make \1	/p' $(MAKEFILE_LIST) | expand -t 20

.PHONY: all levels library constants look check tools install uninstall commit stage dist deb needs wheel help always
