# Builds, installs and packs Inglebreek. `rt` is needed to build, and not to run what is installed.
#
#   make                    builds the library and the programs, which rt proves first
#   make install            installs below PREFIX (/usr/local), into the folder DESTDIR where that is given
#   make uninstall          takes it away again
#   make deb                makes the Debian package target/package/inglebreek_VERSION_amd64.deb
#   make check              tests the functions for C
#
# inglebreek-capture is left out, with a word, where libpcap's header is not there (on Debian: libpcap-dev); a Debian package needs it.
VERSION := $(shell cat VERSION)
PREFIX ?= /usr/local
PROVED ?=
pcap := $(shell printf '\043include <pcap/pcap.h>\n' | gcc -E -x c - >/dev/null 2>&1 && echo yes)

made := target/package
to = $(DESTDIR)$(PREFIX)
own = $(PREFIX)/libexec/inglebreek
documents := README.md docs/RULES.md docs/FILE.md docs/LIVE.md docs/CONTRACTS.md docs/CHANGES.md
words = sed 's|@PREFIX@|$(PREFIX)|g; s|@VERSION@|$(VERSION)|g'

.PHONY: all install uninstall deb check clean

all:
	@mkdir -p $(made)
	tools/library $(PROVED) >$(made)/library
	tools/box/build $(PROVED) box >$(made)/box
	tools/build $(PROVED) cases >$(made)/cases
ifeq ($(pcap),yes)
	tools/capture/build $(PROVED) >$(made)/capture
else
	@echo "inglebreek-capture is left out: needs libpcap's header, on Debian the package libpcap-dev"
endif

install: all
	install -d $(to)/bin $(to)/sbin $(to)/lib/pkgconfig $(to)/lib/systemd/system $(to)/include $(DESTDIR)$(own)/tools \
		$(to)/share/man/man1 $(to)/share/man/man3 $(to)/share/man/man8 $(to)/share/bash-completion/completions $(to)/share/doc/inglebreek/examples
	install -m 644 "$$(cat $(made)/library)" $(to)/lib/libinglebreek.a
	install -m 644 include/inglebreek.h $(to)/include/inglebreek.h
	$(words) package/inglebreek.pc.in >$(to)/lib/pkgconfig/inglebreek.pc
	install -m 755 "$$(cat $(made)/box)" $(to)/sbin/inglebreek
	$(words) package/inglebreek@.service.in >$(to)/lib/systemd/system/inglebreek@.service
ifeq ($(pcap),yes)
	install -m 755 "$$(cat $(made)/capture)" $(to)/bin/inglebreek-capture
	$(words) package/inglebreek-capture.1 >$(to)/share/man/man1/inglebreek-capture.1
endif
	# the tool for gateway files with the program that judges them, which stands where the tool would build it
	install -m 755 "$$(cat $(made)/cases)" $(DESTDIR)$(own)/cases
	install -m 644 VERSION $(DESTDIR)$(own)/VERSION
	printf '#!/bin/sh\necho "$(own)/cases"\n' >$(DESTDIR)$(own)/tools/build
	chmod 755 $(DESTDIR)$(own)/tools/build
	sed 's|tools/gateway-file|inglebreek-file|g' tools/gateway-file >$(DESTDIR)$(own)/tools/gateway-file
	sed 's|^TOOL = .*|TOOL = "inglebreek-file"|' tools/common.py >$(DESTDIR)$(own)/tools/common.py
	install -m 644 tools/gateway_format.py $(DESTDIR)$(own)/tools/gateway_format.py
	printf '#!/bin/sh\nexec python3 -B "$(own)/tools/gateway-file" "$$@"\n' >$(to)/bin/inglebreek-file
	chmod 755 $(to)/bin/inglebreek-file
	$(words) package/inglebreek-file.1 >$(to)/share/man/man1/inglebreek-file.1
	$(words) package/inglebreek.3 >$(to)/share/man/man3/inglebreek.3
	$(words) package/inglebreek.8 >$(to)/share/man/man8/inglebreek.8
	for name in inglebreek inglebreek-capture inglebreek-file; do \
		install -m 644 package/inglebreek.bash $(to)/share/bash-completion/completions/$$name || exit 1; done
	install -m 644 $(documents) $(to)/share/doc/inglebreek
	install -m 644 examples/forward.c $(to)/share/doc/inglebreek/examples

uninstall:
	rm -rf $(DESTDIR)$(own) $(to)/share/doc/inglebreek
	rm -f $(to)/lib/libinglebreek.a $(to)/include/inglebreek.h $(to)/lib/pkgconfig/inglebreek.pc $(to)/sbin/inglebreek $(to)/bin/inglebreek-capture $(to)/bin/inglebreek-file \
		$(to)/lib/systemd/system/inglebreek@.service $(to)/share/man/man1/inglebreek-capture.1 $(to)/share/man/man1/inglebreek-file.1 $(to)/share/man/man3/inglebreek.3 \
		$(to)/share/man/man8/inglebreek.8 $(addprefix $(to)/share/bash-completion/completions/,inglebreek inglebreek-capture inglebreek-file)

deb:
	@[ "$(pcap)" = yes ] || { echo "a Debian package needs libpcap's header: the package libpcap-dev" >&2; exit 1; }
	rm -rf $(made)/stage
	$(MAKE) install DESTDIR=$(made)/stage PREFIX=/usr
	gzip -9n $(made)/stage/usr/share/man/man*/*
	install -d $(made)/stage/DEBIAN
	sed "s|@VERSION@|$(VERSION)|; s|@SIZE@|$$(du -sk $(made)/stage/usr | cut -f1)|" package/control.in >$(made)/stage/DEBIAN/control
	dpkg-deb --root-owner-group --build $(made)/stage $(made)/inglebreek_$(VERSION)_amd64.deb
	rm -rf $(made)/stage

check:
	tools/test-c $(PROVED)

clean:
	rm -rf $(made)
