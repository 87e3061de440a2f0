# Makes packages from a clean checkout, with programs and libraries for both levels of processors. They are put together
# in a temporary folder, since rt refuses a checkout with links.

# The version of a package: VERSION and, if commits came after its last change, their number and the last commit. One
# before a release has `.dev` in it, and for Debian `~dev`, so that it is older than the release.
package = $(eval package := $(or $(shell $(python) python/src/ffosolve/_version.py 2>/dev/null),$(version)))$(package)
archive = ffosolve-$(package)-linux-x86-64
git = git --git-dir='$(CURDIR)/.git'# not the repository of a folder above
clean = $(git) rev-parse -q --verify HEAD >/dev/null || { echo 'a package needs a git commit, which it names' >&2; exit 1; }; \
    change=$$($(git) status --porcelain | head -n 1); [ -z "$$change" ] || { echo "not committed:$$change" >&2; exit 1; }
# The first line of a recipe for packages: refuses once more, now that all is built, and makes the temporary folder.
begin = $(clean); room=$$(mktemp -d); trap 'rm -rf "$$room"' EXIT; umask 022
# Moves packages from the temporary folder to out/, each first under another name, since a disk may be full.
finish = for file in "$$room"/$1; do \
    made="out/$${file\#\#*/}"; install -m 644 "$$file" "$$made.new"; mv -f "$$made.new" "$$made"; echo "made: $$PWD/$$made"; done
seconds = $$($(git) log -1 --format=%ct)

# $(call starters,FOLDER) writes programs into FOLDER/bin which start those for the processor's level. These are all in one
# folder, since pip leaves a folder of folders behind.
starters = for program in $(programs); do \
    install -D packaging/start "$1/bin/$$program"; \
    for level in $(levels); do install -D "out/$$level/$$program" "$1/lib/ffosolve/$$program-$$level"; done; done

commit: # refuses before anything is proved, too
	$(clean)

stage: install
	$(call starters,$(DESTDIR)$(PREFIX))

# $(call texts,FOLDER) writes README.md and PROVED into FOLDER.
texts = install -m 644 packaging/README.md "$1"; \
    { \
        printf '%s\n\n' "ffosolve $(package), commit $$($(git) rev-parse HEAD), $$(rt version)"; \
        echo 'Each function of these crates was proved against its contract. Nothing else is built into:'; \
        for program in $(programs); do echo "bin/$$program: $$(scripts/below $$program | paste -sd ' ')"; done; \
        echo "lib/libffosolve.*: $$(scripts/below ffosolve_c | paste -sd ' ')"; \
    } | install -m 644 /dev/stdin "$1/PROVED"

dist: commit levels ## makes out/ffosolve-VERSION-linux-x86-64.tar.gz, which runs wherever it is unpacked
	$(begin)
	top="$$room/$(archive)"
	make -s stage CPU=x86-64-v2 DESTDIR="$$room" PREFIX=/$(archive) >/dev/null
	# shellcheck disable=SC2016 # pkg-config replaces the variable
	sed -i 's|dir=/$(archive)|dir=$${pcfiledir}/../..|' "$$top/lib/pkgconfig/ffosolve.pc"
	ln -s share/doc/ffosolve/examples "$$top/examples"
	rm "$$top/share/doc/ffosolve/README.md"
	$(call texts,$$top)
	(cd "$$top" && find . -type f | LC_ALL=C sort | xargs -d '\n' sha256sum) >"$$room/SHA256SUMS"
	mv "$$room/SHA256SUMS" "$$top"
	tar -C "$$room" --sort=name --mtime="@$(seconds)" --owner=0 --group=0 --numeric-owner --format=ustar -I 'gzip -9n' -cf "$$room/$(archive).tar.gz" $(archive)
	$(call finish,*.gz)
	(cd out && sha256sum $(archive).tar.gz >$(archive).tar.gz.sha256)

# dpkg-buildpackage runs debian/rules in a copy of the checkout, with a changelog and a VERSION that only make knows.
deb: commands = dpkg-buildpackage:dpkg-dev
deb: commit tools needs levels ## makes packages for Debian: out/ffosolve_VERSION_amd64.deb, out/libffosolve1_VERSION_amd64.deb, ..
	$(begin)
	copy="$$room/ffosolve"
	mkdir "$$copy"
	$(git) ls-files -z | xargs -0 cp -p --parents -t "$$copy"
	cp -pr --parents $(levels:%=out/%) "$$copy"
	$(call texts,$$copy)
	printf '%s\n' 'ffosolve ($(subst .dev,~dev,$(package))) unstable; urgency=medium' '' '  * CHANGELOG.md, in the package ffosolve, says what is new.' '' \
	    " -- Gimzolens <ffosolve@gimzolens.invalid>  $$(date -Rud "@$(seconds)")" >"$$copy/debian/changelog"
	echo '$(package)' >"$$copy/VERSION"
	touch -r LICENSE "$$copy/VERSION"
	said=$$(cd "$$copy" && PATH=/usr/sbin:/usr/bin:/sbin:/bin dpkg-buildpackage --build=binary --unsigned-changes 2>&1) || { echo "$$said" | tail -n 20 >&2; exit 1; }
	$(call finish,*.deb)

# Names missing packages before anything is proved.
needs:
	dpkg-checkbuilddeps || { echo 'apt-get build-dep ./ installs them' >&2; exit 4; }

wheel: modules = hatchling
wheel: commit tools levels ## makes out/ffosolve-VERSION-py3-none-manylinux_2_34_x86_64.whl, the package for Python with programs and library
	$(begin)
	$(call starters,$$room)
	for level in $(levels); do
	    install -D -m 644 out/$$level/libffosolve.so "$$room/package/$$level/libffosolve.so.$(major)"
	    install -t "$$room/package/$$level" $(programs:%=out/$$level/%)
	done
	(cd python && FFOSOLVE_STAGE="$$room" SOURCE_DATE_EPOCH="$(seconds)" $(python) -Bm hatchling build --target wheel --directory "$$room" >/dev/null)
	$(call finish,*.whl)
