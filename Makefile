# Installs the program that ./cvr runs, and packs the one that was built here. Of what is installed you can set PREFIX,
# DESTDIR, LIBDIR, CVR (another program), PAGE (another page for a browser, or none), LIBRARY (the folder of another library
# for C, as tools/library makes it, or none) and ZSH.
PREFIX = /usr/local
DESTDIR =
LIBDIR = $(PREFIX)/lib
CVR = $(shell tools/program)
PAGE = $(wildcard dist/cvr.html)
LIBRARY = $(shell tools/program library)
ZSH = $(PREFIX)/share/zsh/site-functions
SHARE = $(DESTDIR)$(PREFIX)/share
LIBS = $(DESTDIR)$(LIBDIR)
DOCUMENTS = README.md CHANGELOG.md LICENSE SECURITY.md examples/README.md docs/reference/README.md \
	$(wildcard docs/*.* examples/*/*.* examples/exports/*/*.* examples/exports/*/*/*.*)
# What the repository alone has: of a link to it, an installed document has the text.
ALONE = CONTRIBUTING\.md|(bench|crates|dist|javascript|library|man|python|tests|web)/

# Copies the documents to a folder, and makes the pages of the reference there.
copied = for file in $(DOCUMENTS); do install -D -m 644 "$$file" "$(1)/$$file" || exit; done && tools/reference "$(1)" && \
	cd "$(1)" && sed -zEi 's:\[([^][]*)\]\((\.\./)*($(ALONE))[^)]*\):\1:g' $(filter %.md,$(DOCUMENTS))

.PHONY: all docs install install-library uninstall package release

all:
	./cvr --help >/dev/null

# As they are installed; docs/reference/README.md there lists the pages.
docs:
	rm -rf out/doc
	$(call copied,out/doc)

install:
	install -D -m 755 "$(CVR)" "$(DESTDIR)$(PREFIX)/bin/cvr"
	install -D -m 755 companion/cvr-audit "$(SHARE)/cvr/cvr-audit"
	for file in companion/cvr_audit/*.py; do \
		install -D -m 644 "$$file" "$(SHARE)/cvr/cvr_audit/$${file##*/}" || exit; done
	ln -sf ../share/cvr/cvr-audit "$(DESTDIR)$(PREFIX)/bin/cvr-audit"
	for name in cvr cvr-audit; do \
		install -D -m 644 "man/$$name.1" "$(SHARE)/man/man1/$$name.1" && \
		install -D -m 644 "man/$$name.bash" "$(SHARE)/bash-completion/completions/$$name" && \
		install -D -m 644 "man/_$$name" "$(DESTDIR)$(ZSH)/_$$name" && \
		install -D -m 644 "man/$$name.fish" "$(SHARE)/fish/vendor_completions.d/$$name.fish" || exit; done
	$(if $(PAGE),install -D -m 644 "$(PAGE)" "$(SHARE)/doc/cvr/cvr.html")
	$(call copied,$(SHARE)/doc/cvr)
	library="$(LIBRARY)" && { [ -z "$$library" ] || $(MAKE) -s install-library LIBRARY="$$library"; }

# Without a PREFIX cvr.pc stays as it was made, for any.
install-library:
	install -D -m 644 "$(LIBRARY)/cvr.h" "$(DESTDIR)$(PREFIX)/include/cvr.h"
	install -D -m 644 "$(LIBRARY)/cvr.pc" "$(LIBS)/pkgconfig/cvr.pc"
	$(if $(PREFIX),sed -i 's|^prefix=.*|prefix=$(PREFIX)|; s|^libdir=.*|libdir=$(LIBDIR)|' "$(LIBS)/pkgconfig/cvr.pc")
	install -m 644 "$(LIBRARY)/libcvr.a" "$(LIBS)/libcvr.a"
	version=$$(sed -n 's/^Version: //p' "$(LIBRARY)/cvr.pc") && \
	install -m 644 "$(LIBRARY)/libcvr.so" "$(LIBS)/libcvr.so.$$version" && \
	ln -sf "libcvr.so.$$version" "$(LIBS)/libcvr.so.$${version%%.*}" && ln -sf "libcvr.so.$${version%%.*}" "$(LIBS)/libcvr.so"

# Removes what `install` with the same variables puts there, as an install into an empty folder shows; then the folders
# below PREFIX that are empty, but for those that a system has in /usr/local.
uninstall:
	tree=$$(mktemp -d) && trap 'rm -r "$$tree"' EXIT && prefix=$$(realpath -ms "$(DESTDIR)$(PREFIX)") && \
	$(MAKE) -s install CVR=/dev/null DESTDIR="$$tree" PREFIX="$$prefix" \
		LIBDIR="$$(realpath -ms "$(LIBS)")" ZSH="$$(realpath -ms "$(DESTDIR)$(ZSH)")" && \
	cd "$$tree" && find . ! -type d -print0 | (cd / && xargs -0 rm -f) && \
	find ".$$prefix" -mindepth 1 -depth -type d ! -path './usr/local/bin' ! -path './usr/local/include' \
		! -path './usr/local/lib' ! -path './usr/local/share' ! -path './usr/local/share/man' -print0 | (cd / && xargs -0 rmdir 2>/dev/null || :)

# What tests/targets.py made and tried of the program that was last built.
package:
	tools/build
	tools/package

# Once CHANGELOG has the heading of a release: writes its version and date where they stand, builds the program, makes and
# tries it for all systems, and puts what is made of these in dist/.
release:
	tools/release
	tools/build
	python3 tests/targets.py
	tools/package --release
