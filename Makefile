# Installs the programs that the gate built: `make install`, with PREFIX, SYSCONFDIR, DOCDIR, ZSHDIR, PUBLIC and DESTDIR.
# The proofs and the programs themselves are made by `rt` (README.md); `make package` makes a Debian package.
PREFIX ?= /usr/local
SYSCONFDIR ?= /etc
DOCDIR ?= $(PREFIX)/share/doc/ftpd
ZSHDIR ?= $(PREFIX)/share/zsh/site-functions
# The home of `anonymous` in the configuration that is installed; empty: none is made.
PUBLIC ?= /srv/ftp/pub
DESTDIR ?=
FTPD ?= crates/ftpd/out/ftpd
SHEETS ?= crates/sheets/out/sheets

SBIN = $(DESTDIR)$(PREFIX)/sbin
LIBEXEC = $(DESTDIR)$(PREFIX)/libexec/ftpd
BIN = $(DESTDIR)$(PREFIX)/bin
SHARE = $(DESTDIR)$(PREFIX)/share
DOCS = $(DESTDIR)$(DOCDIR)
# Pages for those who work on the repository are not installed, and a link to what is not installed becomes its text.
INNER = DECISIONS architecture desk walk working world
PAGES = $(filter-out $(INNER:%=docs/%.md),$(wildcard docs/*.md))
ABSENT = \.\./(README|LICENSE|bench|crates|edits)|($(shell echo $(INNER) | tr ' ' '|'))\.md
UNITS = $(DESTDIR)$(PREFIX)/lib/systemd/system
CONFIG = $(DESTDIR)$(SYSCONFDIR)/ftpd.toml
OPTIONS = $(DESTDIR)$(SYSCONFDIR)/default/ftpd
ROTATION = $(DESTDIR)$(SYSCONFDIR)/logrotate.d/ftpd

.PHONY: install uninstall package

install:
	install -D -m 755 $(FTPD) $(SBIN)/ftpd
	install -D -m 755 $(SHEETS) $(BIN)/sheets
	install -D -m 755 -t $(LIBEXEC) package/run
	install -D -m 644 -t $(SHARE)/man/man1 man/sheets.1
	install -D -m 644 -t $(SHARE)/man/man5 man/ftpd.toml.5
	install -D -m 644 -t $(SHARE)/man/man8 man/ftpd.8
	install -D -m 644 completions/ftpd.bash $(SHARE)/bash-completion/completions/ftpd
	ln -sf ftpd $(SHARE)/bash-completion/completions/sheets
	install -D -m 644 -t $(DESTDIR)$(ZSHDIR) completions/_ftpd completions/_sheets
	install -D -m 644 -t $(SHARE)/fish/vendor_completions.d completions/ftpd.fish completions/sheets.fish
	install -D -m 644 -t $(DOCS)/docs $(PAGES)
	install -D -m 644 -t $(DOCS)/docs/pictures docs/pictures/*.png
	sed -zEi 's@\[([^][]*)\]\(($(ABSENT))[^)]*\)@\1@g' $(DOCS)/docs/*.md
	install -D -m 644 -t $(DOCS)/examples $(shell find examples -maxdepth 1 -type f)
	install -d $(UNITS)
	sed 's#/usr/local/\(sbin\|libexec\)#$(PREFIX)/\1#g; s#/etc/\(ftpd.toml\|default\)#$(SYSCONFDIR)/\1#g' examples/ftpd.service >$(UNITS)/ftpd.service
	chmod 644 $(UNITS)/ftpd.service
	# A configuration that is there is kept, as are the options of the service and how its log is rotated.
	[ -e $(CONFIG) ] || install -D -m 640 examples/installed.toml $(CONFIG)
	[ -e $(OPTIONS) ] || install -D -m 644 package/default $(OPTIONS)
	[ -e $(ROTATION) ] || install -D -m 644 package/logrotate $(ROTATION)
	[ -z "$(PUBLIC)" ] || install -d $(DESTDIR)$(PUBLIC)

uninstall:
	rm -f $(SBIN)/ftpd $(BIN)/sheets $(UNITS)/ftpd.service
	rm -f $(SHARE)/man/man1/sheets.1 $(SHARE)/man/man5/ftpd.toml.5 $(SHARE)/man/man8/ftpd.8
	rm -f $(SHARE)/bash-completion/completions/ftpd $(SHARE)/bash-completion/completions/sheets
	rm -f $(DESTDIR)$(ZSHDIR)/_ftpd $(DESTDIR)$(ZSHDIR)/_sheets
	rm -f $(SHARE)/fish/vendor_completions.d/ftpd.fish $(SHARE)/fish/vendor_completions.d/sheets.fish
	rm -rf $(DOCS) $(LIBEXEC)

package:
	FTPD=$(FTPD) SHEETS=$(SHEETS) tools/package
