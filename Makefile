# Builds and installs what is proved: two programs and the library, with what C, Rust and Python need to call it.
#   make install PREFIX=/usr/local [DESTDIR=/a/staging/folder]
PREFIX = /usr/local
DESTDIR =
CC = cc

to = $(DESTDIR)$(PREFIX)
library = target/shared/libflamecurl.so.0

all: proved $(library) man

# ./flamecurl sees by itself whether something is to be proved again
proved:
	./flamecurl build

# the archive's code does not depend on where it is loaded, and only the public calls are visible
$(library): proved
	mkdir -p target/shared
	printf '{ global: flamecurl_*; local: *; };\n' >target/shared/visible
	$(CC) -shared -o $@ -Wl,-soname,libflamecurl.so.0 -Wl,--version-script=target/shared/visible -Wl,-z,text \
		-Wl,--no-undefined -Wl,--whole-archive target/staticlib/libflamecurl.a -Wl,--no-whole-archive

man:
	tools/manpages target/man

install: all
	install -d "$(to)/bin" "$(to)/libexec/flamecurl" "$(to)/lib/pkgconfig" "$(to)/include" "$(to)/share/flamecurl"
	install -d "$(to)/share/man/man1" "$(to)/share/man/man3" "$(to)/share/man/man5"
	install -m 755 flamecurl "$(to)/bin/flamecurl"
	install -m 755 target/bin/answers target/bin/run "$(to)/libexec/flamecurl"
	install -m 644 VERSION "$(to)/libexec/flamecurl/VERSION"
	install -m 644 target/staticlib/libflamecurl.a "$(to)/lib/libflamecurl.a"
	install -m 755 $(library) "$(to)/lib/libflamecurl.so.0"
	ln -sf libflamecurl.so.0 "$(to)/lib/libflamecurl.so"
	install -m 644 include/flamecurl.h "$(to)/include/flamecurl.h"
	sed -e 's|@PREFIX@|$(PREFIX)|' -e "s|@VERSION@|$$(cat VERSION)|" include/flamecurl.pc.in >"$(to)/lib/pkgconfig/flamecurl.pc"
	chmod 644 "$(to)/lib/pkgconfig/flamecurl.pc"
	install -m 644 target/man/flamecurl.1 "$(to)/share/man/man1/flamecurl.1"
	install -m 644 target/man/flamecurl.3 "$(to)/share/man/man3/flamecurl.3"
	install -m 644 target/man/flamecurl.5 "$(to)/share/man/man5/flamecurl.5"
	install -m 644 bindings/python/flamecurl.py "$(to)/share/flamecurl/flamecurl.py"

uninstall:
	rm -f "$(to)/bin/flamecurl" "$(to)/lib/libflamecurl.a" "$(to)/lib/libflamecurl.so.0" "$(to)/lib/libflamecurl.so"
	rm -f "$(to)/include/flamecurl.h" "$(to)/lib/pkgconfig/flamecurl.pc"
	rm -f "$(to)/share/man/man1/flamecurl.1" "$(to)/share/man/man3/flamecurl.3" "$(to)/share/man/man5/flamecurl.5"
	rm -rf "$(to)/libexec/flamecurl" "$(to)/share/flamecurl"

.PHONY: all proved man install uninstall
