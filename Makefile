# The dispatch bench for hosts in C: make install PREFIX=/usr/local [DESTDIR=FOLDER]. Installs the headers, the static and the shared library, a
# file for pkg-config and one for CMake's find_package. The library is the proved one that tools/library finds, or that of the folder
# DISPATCH_BENCH_LIB. make uninstall takes the same words and removes what was installed. No folder that is named has a space in its name: make, and
# pkg-config after it, would take it for two.
PREFIX ?= /usr/local
LIBDIR ?= $(PREFIX)/lib
INCLUDEDIR ?= $(PREFIX)/include
DESTDIR ?=
CC ?= cc
$(foreach name,PREFIX LIBDIR INCLUDEDIR DESTDIR DISPATCH_BENCH_LIB,$(if $(filter-out 1,$(words [$($(name))])),\
    $(error $(name) has a space in it, which this Makefile does not take: "$($(name))")))

VERSION := $(shell sed -n 's/^\#define DISPATCH_BENCH_VERSION //p' include/dispatch_bench.h)
FOLDER := $(if $(DISPATCH_BENCH_LIB),$(DISPATCH_BENCH_LIB),target/staticlib)
BUILT := target/install
NAME := libdispatch_bench
SHARED := $(NAME).so.$(VERSION)
HEADERS := dispatch_bench.h dispatch_bench_sentences.h
CMAKE := cmake/dispatch_bench
MADE := dispatch_bench.pc dispatch_benchConfig.cmake dispatch_benchConfigVersion.cmake
INSTALLED := $(addprefix $(INCLUDEDIR)/,$(HEADERS)) $(addprefix $(LIBDIR)/,$(NAME).a $(SHARED) $(NAME).so pkgconfig/dispatch_bench.pc \
    $(CMAKE)/dispatch_benchConfig.cmake $(CMAKE)/dispatch_benchConfigVersion.cmake)

.PHONY: all install uninstall library

all: $(BUILT)/$(SHARED)

library:
ifdef DISPATCH_BENCH_LIB
	@test -f $(FOLDER)/$(NAME).a || { echo "$(FOLDER)/$(NAME).a is missing: DISPATCH_BENCH_LIB names a folder without the library" >&2; exit 1; }
else
	@tools/library
endif

# Every function of the archive, and nothing that is not there.
$(BUILT)/$(SHARED): library
	@mkdir -p $(BUILT)
	$(CC) -shared -Wl,-z,defs -Wl,-soname,$(SHARED) -Wl,--whole-archive $(FOLDER)/$(NAME).a -Wl,--no-whole-archive -o $@

install: $(BUILT)/$(SHARED)
	install -d $(DESTDIR)$(INCLUDEDIR) $(DESTDIR)$(LIBDIR)/pkgconfig $(DESTDIR)$(LIBDIR)/$(CMAKE)
	install -m 644 $(addprefix include/,$(HEADERS)) $(DESTDIR)$(INCLUDEDIR)
	install -m 644 $(FOLDER)/$(NAME).a $(BUILT)/$(SHARED) $(DESTDIR)$(LIBDIR)
	ln -sf $(SHARED) $(DESTDIR)$(LIBDIR)/$(NAME).so
	for file in $(MADE); do sed -e 's|@PREFIX@|$(PREFIX)|g; s|@LIBDIR@|$(LIBDIR)|g; s|@INCLUDEDIR@|$(INCLUDEDIR)|g; s|@VERSION@|$(VERSION)|g' \
	    packaging/$$file.in >$(BUILT)/$$file || exit 1; done
	install -m 644 $(BUILT)/dispatch_bench.pc $(DESTDIR)$(LIBDIR)/pkgconfig
	install -m 644 $(BUILT)/dispatch_benchConfig.cmake $(BUILT)/dispatch_benchConfigVersion.cmake $(DESTDIR)$(LIBDIR)/$(CMAKE)

uninstall:
	rm -f $(addprefix $(DESTDIR),$(INSTALLED))
	-rmdir $(DESTDIR)$(LIBDIR)/$(CMAKE)
