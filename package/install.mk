# Installing under PREFIX, and taking it away again.
BIN = $(DESTDIR)$(PREFIX)/bin
INCLUDE = $(DESTDIR)$(PREFIX)/include
LIB = $(DESTDIR)$(PREFIX)/lib
MAN = $(DESTDIR)$(PREFIX)/share/man
DOC = $(DESTDIR)$(PREFIX)/share/doc/stops
INSTALLED = $(BIN)/stops $(BIN)/stops-text $(INCLUDE)/stops.h \
	$(LIB)/libstops.a $(LIB)/libstops.so $(LIB)/$(SONAME) $(LIB)/libstops.so.$(VERSION) \
	$(LIB)/pkgconfig/stops.pc \
	$(MAN)/man1/stops.1 $(MAN)/man1/stops-text.1 $(MAN)/man3/stops.3 \
	$(DOC)/PROTOCOL.md $(DOC)/LAYOUT.md $(DOC)/CHANGELOG.md

install: lib text $(STOPS)
	install -d $(BIN) $(INCLUDE) $(LIB)/pkgconfig $(MAN)/man1 $(MAN)/man3 $(DOC)
	install -m 755 $(STOPS) $(STOPS_TEXT) $(BIN)
	install -m 644 include/stops.h $(INCLUDE)
	install -m 644 $(PACKAGE)/libstops.a $(LIB)
	install -m 755 $(SHARED) $(LIB)
	ln -sf libstops.so.$(VERSION) $(LIB)/$(SONAME)
	ln -sf $(SONAME) $(LIB)/libstops.so
	install -m 644 docs/PROTOCOL.md docs/LAYOUT.md docs/CHANGELOG.md $(DOC)
	sed 's|@PREFIX@|$(abspath $(PREFIX))|; s|@VERSION@|$(VERSION)|' package/stops.pc.in > $(LIB)/pkgconfig/stops.pc
	sed 's|@VERSION@|$(VERSION)|' package/stops.1 > $(MAN)/man1/stops.1
	sed 's|@VERSION@|$(VERSION)|' package/stops.3 > $(MAN)/man3/stops.3
	sh package/manual.sh $(VERSION) < text/src/help.txt > $(MAN)/man1/stops-text.1

uninstall:
	rm -f $(INSTALLED)
