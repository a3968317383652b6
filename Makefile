# make                          the archive, crates/ceromby/out/libceromby.a: proves the library first
# make install PREFIX=DIR       header, archive, pkg-config file and CMake package to DIR (/usr/local); DESTDIR stages
# make uninstall PREFIX=DIR     takes them away again
#
# CEROMBY_LIB_DIR=DIR takes libceromby.a from there in place of making it.

PREFIX = /usr/local
INSTALL = install
RT = rt

$(if $(filter /%,$(PREFIX)),,$(error PREFIX is $(PREFIX): name the directory by an absolute path))
include := $(DESTDIR)$(PREFIX)/include
lib := $(DESTDIR)$(PREFIX)/lib
package := host/package
made := crates/ceromby/out/libceromby.a
archive := $(if $(CEROMBY_LIB_DIR),$(CEROMBY_LIB_DIR)/libceromby.a,$(made))
number = $(shell sed -n 's/^\#define CEROMBY_VERSION_$(1) //p' include/ceromby.h)
version := $(call number,MAJOR).$(call number,MINOR).$(call number,PATCH)
fill := sed 's|@PREFIX@|$(PREFIX)|; s|@VERSION@|$(version)|'

all: $(archive)

$(made): crates.txt $(shell find crates -name out -prune -o -name '*.rt' -print -o -name '*.antt' -print)
	cd crates/ceromby && $(RT) lib
	touch $@

$(filter-out $(made),$(archive)):
	@echo 'there is no $@; rt lib in crates/ceromby makes one in crates/ceromby/out' >&2 && exit 1

install: $(archive)
	$(INSTALL) -d $(include) $(lib)/pkgconfig $(lib)/cmake/ceromby
	$(INSTALL) -m 644 include/ceromby.h $(include)/ceromby.h
	$(INSTALL) -m 644 $(archive) $(lib)/libceromby.a
	$(fill) $(package)/ceromby.pc.in >$(lib)/pkgconfig/ceromby.pc
	$(fill) $(package)/ceromby-config-version.cmake.in >$(lib)/cmake/ceromby/ceromby-config-version.cmake
	$(INSTALL) -m 644 $(package)/ceromby-config.cmake $(lib)/cmake/ceromby/ceromby-config.cmake

uninstall:
	rm -f $(include)/ceromby.h $(lib)/libceromby.a $(lib)/pkgconfig/ceromby.pc
	rm -rf $(lib)/cmake/ceromby

.PHONY: all install uninstall
