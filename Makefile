# The library for C: built, installed, and the sample programs over it. `rt` proves every crate that the archive is
# made of before it writes the archive. What it proved it keeps in crates/*/out/, so only what changed is proved again.
#
#     make                          target/staticlib/libbilashonge.a
#     make install PREFIX=/where    header, archive and bilashonge.pc; DESTDIR goes before PREFIX, for packagers
#     make sample                   target/sample/tablet, target/sample/bench
#     make clean                    removes archive and samples, and keeps what is proved

# The one place that holds the version.
VERSION := 0.5.0
PREFIX := /usr/local
DESTDIR :=

# An archive built elsewhere can be named instead (make ARCHIVE=..); then nothing is proved here.
BUILT := target/staticlib/libbilashonge.a
ARCHIVE := $(BUILT)

# The archive is x86-64 code. On another processor Debian's cross compiler links what is for x86-64, statically, since
# no C library for x86-64 is there to be loaded. CC=.. names another compiler.
ifeq ($(origin CC),default)
CC := $(if $(filter x86_64,$(shell uname -m)),cc,x86_64-linux-gnu-gcc -static)
endif
CFLAGS := -O2 -std=c99 -Wall -Wextra -Wpedantic

# Where the installed files are looked for: DESTDIR is left out of it, as it is there while packing only.
prefix := $(abspath $(PREFIX))
define PC
prefix=$(prefix)
includedir=$${prefix}/include
libdir=$${prefix}/lib

Name: bilashonge
Description: Layout of a meter's tables (ANSI C12.19), worked out from octets, proved
Version: $(VERSION)
Cflags: -I$${includedir}
Libs: -L$${libdir} -lbilashonge
endef
export PC

.PHONY: all install sample clean
.DELETE_ON_ERROR:

all: $(ARCHIVE)

# An old archive goes first: where a proof fails, none is left that would pass for the new one. `rt lib` proves each library that the
# interface stands on, then the exports of crate bilashonge_c, and writes the archive into that crate's out/.
$(BUILT): crates.txt $(shell find crates -name out -prune -o \( -name '*.rt' -o -name '*.antt' \) -print)
	rm -f $@
	cd crates/bilashonge_c && rt lib
	install -D -m 644 crates/bilashonge_c/out/libbilashonge_c.a $@

install: $(ARCHIVE)
	install -d $(DESTDIR)$(prefix)/include $(DESTDIR)$(prefix)/lib/pkgconfig
	install -m 644 include/bilashonge.h $(DESTDIR)$(prefix)/include/bilashonge.h
	install -m 644 $(ARCHIVE) $(DESTDIR)$(prefix)/lib/libbilashonge.a
	printf '%s\n' "$$PC" >$(DESTDIR)$(prefix)/lib/pkgconfig/bilashonge.pc
	chmod 644 $(DESTDIR)$(prefix)/lib/pkgconfig/bilashonge.pc

# Linked anew each time, as ARCHIVE may be another than last time.
sample: $(ARCHIVE)
	mkdir -p target/sample
	$(CC) $(CFLAGS) -Iinclude -o target/sample/tablet sample/tablet.c $(ARCHIVE)
	$(CC) $(CFLAGS) -Iinclude -o target/sample/bench sample/bench.c $(ARCHIVE)

clean:
	rm -rf target/staticlib target/sample
