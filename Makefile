# make install PREFIX=/usr/local     installs `hb`, which `rt ci`, or `rt run` in crates/hb, has built and proved
# make uninstall PREFIX=/usr/local   removes what that installed
#
# DESTDIR=FOLDER goes before every path, as packagers need it. HB=FILE is another program to install. A folder of completions
# or of documents may be given by itself, as in ZSHDIR=/usr/share/zsh/vendor-completions.

PREFIX ?= /usr/local
DESTDIR ?=
HB ?= crates/hb/out/hb
BINDIR ?= $(PREFIX)/bin
DATADIR ?= $(PREFIX)/share
MANDIR ?= $(DATADIR)/man/man1
BASHDIR ?= $(DATADIR)/bash-completion/completions
ZSHDIR ?= $(DATADIR)/zsh/site-functions
DOCDIR ?= $(DATADIR)/doc/hb
INSTALL ?= install

PAGES := hb.1 hb-render.1 hb-build.1 hb-check.1 hb-origins.1
# What a user of `hb` reads, in the folders in which it is here, so that links between documents hold.
DOCUMENTS := LICENSE CHANGELOG.md $(addprefix docs/,HB.md PROBLEMS.md NAMES.md HTML.md MARKUP.md GUIDE.md LANGUAGE.md FROM_HANDLEBARS_JS.md)
EXAMPLES := $(sort $(shell find examples/mail_merge examples/report examples/site -type f ! -path '*/runs/*' ! -path '*/out/*'))
# The newest version of the changelog, and its date.
VERSION := $(shell awk '$$1 == "\043\043" { print $$2; exit }' CHANGELOG.md)
DATE := $(shell awk '$$1 == "\043\043" { print substr($$3, 2, 10); exit }' CHANGELOG.md)

.PHONY: all install uninstall

all:
	@test -x '$(HB)' || { echo '$(HB) is not there. Build it first: rt ci, or (cd crates/hb && rt run -- --version)' >&2; exit 1; }

install: all
	$(INSTALL) -d '$(DESTDIR)$(BINDIR)' '$(DESTDIR)$(MANDIR)' '$(DESTDIR)$(BASHDIR)' '$(DESTDIR)$(ZSHDIR)'
	$(INSTALL) -m 755 '$(HB)' '$(DESTDIR)$(BINDIR)/hb'
	for page in $(PAGES); do \
	    sed 's|@VERSION@|$(VERSION)|; s|@DATE@|$(DATE)|' "packaging/$$page" > '$(DESTDIR)$(MANDIR)'/"$$page" && \
	    chmod 644 '$(DESTDIR)$(MANDIR)'/"$$page" || exit 1; \
	done
	$(INSTALL) -m 644 packaging/hb.bash '$(DESTDIR)$(BASHDIR)/hb'
	$(INSTALL) -m 644 packaging/_hb '$(DESTDIR)$(ZSHDIR)/_hb'
	for file in $(DOCUMENTS) $(EXAMPLES); do \
	    $(INSTALL) -D -m 644 "$$file" '$(DESTDIR)$(DOCDIR)'/"$$file" || exit 1; \
	done

uninstall:
	rm -f '$(DESTDIR)$(BINDIR)/hb' '$(DESTDIR)$(BASHDIR)/hb' '$(DESTDIR)$(ZSHDIR)/_hb'
	for page in $(PAGES); do rm -f '$(DESTDIR)$(MANDIR)'/"$$page"; done
	for file in $(DOCUMENTS) $(EXAMPLES); do rm -f '$(DESTDIR)$(DOCDIR)'/"$$file"; done
	if [ -d '$(DESTDIR)$(DOCDIR)' ]; then find '$(DESTDIR)$(DOCDIR)' -depth -type d -empty -delete; fi
