# The C libraries for plugins. `make install PREFIX=..` proves and builds them (on a machine with the Rattle kit) and puts them, their headers and pkg-config
# files where a compiler finds them; `make` builds them alone, in target/install; `make uninstall PREFIX=..` takes away what install put there. For a package:
#     make install DESTDIR=debian/tmp PREFIX=/usr LIBDIR=/usr/lib/x86_64-linux-gnu
# Headers stand in a folder of their own, so that a name like framing.h meets no other: `#include <ember.h>` with pkg-config's flags, <ember/ember.h> without.
PREFIX = /usr/local
DESTDIR =
LIBDIR = $(PREFIX)/lib
INCLUDEDIR = $(PREFIX)/include
DOCDIR = $(PREFIX)/share/doc/ember

# The processor that the libraries are compiled for: x86-64 is all of them, and x86-64-v2 and v3 are those with more.
CPU = x86-64

NAMES = ember framing supervision
CRATE_ember = ember
CRATE_framing = framing_c
CRATE_supervision = supervision_c
TEXT_ember = Verified Ember+: framing, the Glow tree, the routing desk
TEXT_framing = Verified S101 framing for gateways
TEXT_supervision = Verified supervision of S101 connections
VERSION := $(shell sed -n 's/^\#define EMBER_VERSION "\(.*\)"/\1/p' crates/ember/include/ember.h)
NUMBER := $(shell echo '$(VERSION)' | awk -F. '{ print 100 * $$1 + $$2 }')

OUT = target/install
LIBRARIES = $(NAMES:%=$(OUT)/lib%.a)
HEADERS = $(foreach name,$(NAMES),$(wildcard crates/$(CRATE_$(name))/include/*.h*))
DOCS = docs/GLOW.md examples/sample.bin examples/sample.pcap $(wildcard examples/*/*.c examples/*/*.cpp)
SOURCES := $(shell find crates -name out -prune -o \( -name '*.rt' -o -name '*.antt' \) -print)

all: $(LIBRARIES)

# A library of one object, with its version and all names hidden: what links it shows none of them, so two plugins with two versions never meet in one host.
.SECONDEXPANSION:
$(OUT)/lib%.a: target/staticlib/lib$$(CRATE_$$*).a Makefile crates/ember/include/ember.h
	mkdir -p $(OUT)/$*
	cd $(OUT)/$* && rm -f *.o && ar x ../../staticlib/lib$(CRATE_$*).a
	printf '#include <stdint.h>\nuint64_t $*_version(void);\nuint64_t $*_version(void)\n{\n    return $(NUMBER);\n}\n' > $(OUT)/$*/version.c
	$(CC) -O2 -fPIC -c $(OUT)/$*/version.c -o $(OUT)/$*/version.o
	nm -g --defined-only $(OUT)/$*/*.o | awk '$$2 == "T" { print ".hidden " $$3; print ".reloc 0, R_X86_64_NONE, " $$3 }' > $(OUT)/$*/hidden.s
	echo '.section .note.GNU-stack,"",@progbits' >> $(OUT)/$*/hidden.s
	$(CC) -c $(OUT)/$*/hidden.s -o $(OUT)/$*/hidden.o
	$(LD) -r $(OUT)/$*/*.o -o $(OUT)/$*.o
	rm -f $@ && $(AR) rcs $@ $(OUT)/$*.o

# The library as it is proved and built, with its names as they are: the static library crate of each C interface (framing_archive for framing_c, and so on).
# `make target/staticlib/libember.a` makes one alone; libglow_c.a, the tree by itself, is not installed.
target/staticlib/lib%.a: crates.txt $(SOURCES)
	cd crates/$(*:_c=)_archive && rt lib --cpu $(CPU)
	mkdir -p target/staticlib
	cp crates/$(*:_c=)_archive/out/lib$(*:_c=)_archive.a $@

$(NAMES:%=$(OUT)/%.pc): $(OUT)/%.pc: always
	mkdir -p $(OUT)
	printf '%s\n' 'prefix=$(abspath $(PREFIX))' 'libdir=$(patsubst $(PREFIX)/%,$${prefix}/%,$(LIBDIR))' \
	    'includedir=$(patsubst $(PREFIX)/%,$${prefix}/%,$(INCLUDEDIR))' '' 'Name: $*' 'Description: $(TEXT_$*)' 'Version: $(VERSION)' \
	    'Libs: -L$${libdir} -l$*' 'Cflags: -I$${includedir}/ember' > $@

.PHONY: all install uninstall always
install: $(LIBRARIES) $(NAMES:%=$(OUT)/%.pc)
	install -d $(DESTDIR)$(LIBDIR)/pkgconfig $(DESTDIR)$(INCLUDEDIR)/ember $(DESTDIR)$(DOCDIR)
	install -m 644 $(LIBRARIES) $(DESTDIR)$(LIBDIR)
	install -m 644 $(NAMES:%=$(OUT)/%.pc) $(DESTDIR)$(LIBDIR)/pkgconfig
	install -m 644 $(HEADERS) $(DESTDIR)$(INCLUDEDIR)/ember
	install -m 644 $(DOCS) $(DESTDIR)$(DOCDIR)

uninstall:
	rm -f $(NAMES:%=$(DESTDIR)$(LIBDIR)/lib%.a) $(NAMES:%=$(DESTDIR)$(LIBDIR)/pkgconfig/%.pc)
	rm -f $(addprefix $(DESTDIR)$(INCLUDEDIR)/ember/,$(notdir $(HEADERS))) $(addprefix $(DESTDIR)$(DOCDIR)/,$(notdir $(DOCS)))
	rmdir --ignore-fail-on-non-empty $(DESTDIR)$(INCLUDEDIR)/ember $(DESTDIR)$(DOCDIR) $(DESTDIR)$(LIBDIR)/pkgconfig
