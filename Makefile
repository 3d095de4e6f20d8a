# The one door: `make` lists what can be made. PREFIX and DESTDIR are as everywhere. LABELS and PROVED name a program
# and a static library that are proved already; without them `rt` of the Rattle kit makes them, for every amd64 processor.
# PROVED_ARM64 names such a library for arm64. The program is for amd64 alone: the kit links no other one. Packages are
# made for ARCHITECTURES; without arm64 among them nothing of it is needed, as by `make release ARCHITECTURES=amd64`.
MAKEFLAGS += --no-builtin-rules
PREFIX ?= /usr/local
DATADIR = $(PREFIX)/share
LIBDIR ?= $(PREFIX)/lib
PYTHONDIR ?= $(LIBDIR)/python3/dist-packages
ZSHDIR ?= $(DATADIR)/zsh/site-functions
CPU ?= x86-64
ARCHITECTURES ?= amd64 arm64
# make cuts names at spaces, and it or the shell takes these signs for its own: files would not be found.
ODD := " \# $$ % & ' ( ) * : ; < = > ? [ \ ] ^ ` { | } !
refused = $(error make cannot handle the $(1) in $(if $(filter CURDIR,$(2)),the name of this folder,$(2)): $($(2)))
$(foreach name,CURDIR PREFIX DESTDIR,$(if $(word 2,$($(name))),$(call refused,space,$(name)))$(foreach sign,$(ODD),\
    $(if $(findstring $(sign),$($(name))),$(call refused,$(sign),$(name)))))
$(if $(filter-out amd64 arm64,$(ARCHITECTURES)),$(error ARCHITECTURES is $(ARCHITECTURES): it has to be amd64, or \
    amd64 and arm64))
$(if $(filter amd64,$(ARCHITECTURES)),,$(error ARCHITECTURES lacks amd64, which all packages but those of the library \
    are for))
with_arm64 = $(if $(filter arm64,$(ARCHITECTURES)),$(1))
LABELS ?= out/labels
PROVED ?= out/liblabels_c.a
PROVED_ARM64 ?= out/arm64/liblabels_c.a
SOURCES := $(shell find crates -name out -prune -o -name '*.rt' -print -o -name '*.antt' -print)
TOOLS := $(notdir $(wildcard tools/label-*))
# The window has no completion: a link would take away that of file names.
COMPLETED := $(filter-out label-window,$(TOOLS))
MODULES := $(shell cd tools && find labeltools -name '*.py' -o -name '*.ui' -o -name '*.list')
LANGUAGES := $(patsubst tools/po/%.po,%,$(wildcard tools/po/*.po))
WINDOW = org.labels.Window
# The pages, the programs that they call, and the definitions that docs/PROOF-READING.md has read.
DOCUMENTS := README.md $(wildcard docs/*.md docs/pictures/* designs/* examples/* crates/*/specs/*.antt) \
    crates/command/src/entry.rt lib/examples/read.py tools/tests/printers.py
PYTHON = /usr/bin/python3
library = $(MAKE) -C lib OUT=$(CURDIR)/out/lib PROVED=$(abspath $(PROVED)) $(1)
link = ln -sfn $(1) $(DESTDIR)$(2)

help:
	@echo 'make quick     the texts, the lints and the quick tests that need no program: a minute or two'
	@echo 'make check     proves and tests every crate: 10 to 20 minutes'
	@echo 'make gate      all that a change has to pass'
	@echo 'make gate-test the same in a fresh Debian, as root'
	@echo 'make all       the proved program in out/, the C library in out/lib/'
	@echo 'make library   only the C library, in out/lib/'
	@echo 'make deb       the Debian packages of what is committed, for amd64 and arm64, in out/deb/'
	@echo 'make release   the same with the source and checksums, in out/release/'
	@echo '               (both only for amd64, with nothing of arm64: ARCHITECTURES=amd64)'
	@echo 'make deb-test  tries the packages in a fresh Debian, as root'
	@echo 'make install | uninstall [PREFIX=$(PREFIX)] [DESTDIR=]'

quick:
	$(PYTHON) scripts/gate.py quick
check:
	rt ci
gate:
	.ci/run

all: $(LABELS) library
library: $(PROVED)
	$(call library,all)

# Stops where there is no compiler, and says what does without.
needs_rt = command -v rt > /dev/null || { echo 'rt of the Rattle kit is not on the path. Or $(1)' >&2; exit 1; }
with_files = name proved files: make LABELS=PROGRAM PROVED=LIBRARY.a
with_file_of_arm64 = name a proved library for arm64: make PROVED_ARM64=LIBRARY.a. Or do without: make \
    ARCHITECTURES=amd64

out/labels: $(SOURCES)
	@$(call needs_rt,$(with_files))
	cd crates/labels && rt run --cpu $(CPU) < /dev/null
	install -D crates/labels/out/labels $@
out/liblabels_c.a: $(SOURCES) | $(LABELS)
	@$(call needs_rt,$(with_files))
	cd crates/labels_c && rt lib --cpu $(CPU)
	install -D -m 644 crates/labels_c/out/liblabels_c.a $@
# rt has one name for the libraries of both processors: that for amd64 is put back.
out/arm64/liblabels_c.a: $(SOURCES)
	@$(call needs_rt,$(with_file_of_arm64))
	set -e; cd crates/labels_c; kept=out/amd64.a; [ ! -e out/liblabels_c.a ] || mv out/liblabels_c.a $$kept; \
	    trap '[ ! -e $$kept ] || mv $$kept out/liblabels_c.a' EXIT; rt lib --target aarch64-unknown-linux-gnu; \
	    install -D -m 644 out/liblabels_c.a $(CURDIR)/$@

install: all install-library
	install -D $(LABELS) $(DESTDIR)$(PREFIX)/bin/labels
	set -e; for tool in $(TOOLS); do \
	    install -D tools/$$tool $(DESTDIR)$(DATADIR)/label-tools/$$tool; \
	    $(call link,../share/label-tools/$$tool,$(PREFIX)/bin/$$tool); done
	set -e; for file in $(MODULES); do \
	    install -D -m 644 tools/$$file $(DESTDIR)$(DATADIR)/label-tools/$$file; done
	install -D -m 644 -t $(DESTDIR)$(DATADIR)/label-tools/designs designs/*.svg docs/pictures/design-*.png
# The bytecode is a third of the time that a tool starts in; dpkg makes it for packages.
	[ -n '$(DESTDIR)' ] || { umask 022; $(PYTHON) -m compileall -q $(DATADIR)/label-tools; }
	set -e; for language in $(LANGUAGES); do \
	    folder=$(DESTDIR)$(DATADIR)/label-tools/labeltools/locale/$$language/LC_MESSAGES; install -d $$folder; \
	    msgfmt --check-format -o $$folder/label-tools.mo tools/po/$$language.po; \
	    chmod 644 $$folder/label-tools.mo; done
	$(PYTHON) tools/help/window_help.py out/help
	set -e; cd out/help; for page in */*/*.html; do install -D -m 644 $$page $(DESTDIR)$(DATADIR)/help/$$page; done
	install -D -m 644 -t $(DESTDIR)$(DATADIR)/applications tools/data/$(WINDOW).desktop
	install -D -m 644 -t $(DESTDIR)$(DATADIR)/icons/hicolor/scalable/apps tools/data/$(WINDOW).svg
	install -D -m 644 -t $(DESTDIR)$(DATADIR)/metainfo tools/data/$(WINDOW).metainfo.xml
	$(PYTHON) tools/help/installed_pages.py $(DESTDIR)$(DATADIR)/doc/labels $(DOCUMENTS)
	install -D -m 644 -t $(DESTDIR)$(DATADIR)/man/man1 man/*.1
	install -D -m 644 -t $(DESTDIR)$(DATADIR)/man/man5 man/*.5
	sed -i 's|/usr/share/|$(DATADIR)/|' $(DESTDIR)$(DATADIR)/man/man[15]/label*.[15]
	install -D -m 644 completions/labels.bash $(DESTDIR)$(DATADIR)/bash-completion/completions/labels
	install -D -m 644 -t $(DESTDIR)$(DATADIR)/fish/vendor_completions.d completions/labels.fish
	install -D -m 644 -t $(DESTDIR)$(ZSHDIR) completions/_labels
	set -e; for tool in $(COMPLETED); do \
	    $(call link,labels,$(DATADIR)/bash-completion/completions/$$tool); \
	    $(call link,labels.fish,$(DATADIR)/fish/vendor_completions.d/$$tool.fish); done
	@[ -n '$(DESTDIR)' ] || echo 'Type this, too: export PATH=$(PREFIX)/bin:$$PATH LD_LIBRARY_PATH=$(LIBDIR)' \
	    PKG_CONFIG_PATH=$(LIBDIR)/pkgconfig PYTHONPATH=$(PYTHONDIR)

install-library: library
	$(call library,install DESTDIR=$(DESTDIR) PREFIX=$(PREFIX) LIBDIR=$(LIBDIR) PYTHONDIR=$(PYTHONDIR))
	install -D -m 644 -t $(DESTDIR)$(DATADIR)/doc/liblabels-dev/examples $(wildcard lib/examples/*)
	install -D -m 644 -t $(DESTDIR)$(DATADIR)/doc/python3-liblabels/examples $(wildcard lib/examples/*.py)

# Removes what this version installs, and the folders that only it used.
uninstall: all
	set -e; new=$$(mktemp -d); trap 'rm -rf "$$new"' EXIT; $(MAKE) -s install DESTDIR="$$new"; cd "$$new"; \
	    find . ! -type d -exec sh -c 'for f; do rm -f "$(DESTDIR)/$$f"; done' - {} +; \
	    find . -depth -path '*label*' -type d -exec sh -c 'for f; do rm -rf "$(DESTDIR)/$$f/__pycache__"; \
	        rmdir "$(DESTDIR)/$$f" || :; done' - {} + 2>&-

# dpkg-buildpackage reads it before it runs anything.
debian/changelog:
	debian/changelog.py > $@

# What is committed, built in a copy. The packages are those of the commit, byte for byte. What a build for arm64 needs
# is that of amd64 and gcc-aarch64-linux-gnu: -d, since Debian would ask for compilers of other languages too.
deb: $(LABELS) $(PROVED) $(call with_arm64,$(PROVED_ARM64))
	rm -rf out/deb && mkdir -p out/deb/source
	git archive HEAD | tar -x -C out/deb/source
	debian/changelog.py > out/deb/source/debian/changelog
	cd out/deb/source && MAKEFLAGS= LABELS=$(abspath $(LABELS)) PROVED=$(abspath $(PROVED)) dpkg-buildpackage -b -us -uc
	$(call with_arm64,cd out/deb/source && MAKEFLAGS= PROVED=$(abspath $(PROVED_ARM64)) \
	    dpkg-buildpackage -B -aarm64 -d -us -uc)
	ls out/deb/*.deb

# What is given away, of what is committed: the packages, their source, the sums of all.
release: deb
	rm -rf out/release out/source
	umask 022; set -e; mkdir -p out/release out/source/labels; cp out/deb/*.deb out/release; \
	    git archive HEAD | tar -x --no-same-permissions -C out/source/labels; \
	    debian/changelog.py > out/source/labels/debian/changelog; \
	    cd out/release; dpkg-source --build ../source/labels; sha256sum ./*.deb ./*.dsc ./*.tar.* > SHA256SUMS
	ls out/release

# A fresh Debian in out/root; MIRROR names another mirror.
define fresh_root
	rm -rf --one-file-system out/root && mkdir -p out && debootstrap --variant=minbase bookworm out/root $(MIRROR)
	cp /etc/resolv.conf out/root/etc
endef
mounted = unshare --mount --propagation private sh -ec 'mount -t proc proc out/root/proc; \
    mount -t devpts -o newinstance,ptmxmode=0666 devpts out/root/dev/pts; $(1)'
KIT = $(patsubst %/bin/rt,%,$(realpath $(shell command -v rt)))

# The gate in a fresh Debian: a clone of what is committed, with the kit of this machine beside it, and without what
# that keeps of earlier proofs. It needs root and debootstrap.
gate-test:
	$(fresh_root)
	git clone --quiet . out/root/work
	mkdir -p out/root$(KIT) && ln -s $(KIT)/bin/rt out/root/usr/local/bin/rt
	$(call mounted, mount --bind $(KIT) out/root$(KIT); \
	    chroot out/root env -i HOME=/root PATH=/usr/local/bin:/usr/sbin:/usr/bin:/sbin:/bin CI=true \
	    /work/.ci/run --from-nothing)

# The packages in a fresh Debian below out/, whose mounts are seen there alone. It needs root, debootstrap, autopkgtest
# and piuparts, which installs, upgrades and purges, and sees that nothing is left but what systemd leaves: GTK, which
# label-window needs, brings it.
OF_SYSTEMD = /(root/\.ssh|var/(cache|lib|log)/(private|systemd/.*))/?
deb-test:
	lintian -EvIL +pedantic --fail-on error,warning,info,pedantic out/deb/*.changes
	$(fresh_root)
	tar -C out/root -czf out/root.tgz .
	cd out/deb && dpkg-scanpackages . > Packages
	piuparts -b out/root.tgz -d bookworm --no-eatmydata --ignore-regex '$(OF_SYSTEMD)' --bindmount $(CURDIR)/out/deb \
	    --extra-repo 'deb [trusted=yes] file:$(CURDIR)/out/deb ./' out/deb/*_amd64.changes
	$(call mounted, autopkgtest $(wildcard out/deb/*_all.deb out/deb/*_amd64.deb) out/deb/source/ -- chroot \
	    $(CURDIR)/out/root)

clean:
	rm -rf out

.PHONY: help quick check gate all library install install-library uninstall debian/changelog deb deb-test gate-test \
    release clean
