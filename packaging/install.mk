# `make install`, `make uninstall` and `make deb`. Each of these places can be given to make; DESTDIR comes before all of them.
PREFIX ?= /usr/local
BINDIR ?= $(PREFIX)/bin
LIBDIR ?= $(PREFIX)/lib
INCLUDEDIR ?= $(PREFIX)/include
DATADIR ?= $(PREFIX)/share
MANDIR ?= $(DATADIR)/man
# Where Python looks for modules. The module is installed only if this is given.
PYTHONDIR ?=

# Examples, of which two are programs; the man page has commands with them.
EXAMPLES := $(sort $(wildcard examples/*))
PROGRAMS := examples/annotations examples/pre-commit
# The files of the module.
MODULE := $(wildcard python/korzhinay/*.py python/korzhinay/py.typed)

define newline


endef

# The files that are installed: $(1) is called with the mode, the file and its place.
define each_installed
$(call $(1),755,target/korzhinay,$(BINDIR)/korzhinay)
$(call $(1),644,$(LIB),$(LIBDIR)/libkorzhinay.a)
$(call $(1),644,target/libkorzhinay.so,$(LIBDIR)/libkorzhinay.so.$(VERSION))
$(call $(1),644,include/korzhinay.h,$(INCLUDEDIR)/korzhinay.h)
$(call $(1),644,target/korzhinay.1,$(MANDIR)/man1/korzhinay.1)
$(call $(1),644,target/korzhinay.bash,$(DATADIR)/bash-completion/completions/korzhinay)
$(call $(1),644,LICENSE,$(DATADIR)/doc/korzhinay/LICENSE)
$(foreach file,$(EXAMPLES),$(call $(1),$(if $(filter $(file),$(PROGRAMS)),755,644),$(file),$(DATADIR)/doc/korzhinay/$(file))$(newline))
$(if $(PYTHONDIR),$(foreach file,$(MODULE),$(call $(1),644,$(file),$(PYTHONDIR)/korzhinay/$(notdir $(file)))$(newline)))
endef

put = install -D -m $(1) $(2) "$(DESTDIR)$(3)"
take = rm -f "$(DESTDIR)$(3)"

# Every place is an absolute path, since DESTDIR comes before it, and has no blanks, which pkg-config could not hand on.
wrong_places = $(filter-out /%,$(PREFIX) $(BINDIR) $(LIBDIR) $(INCLUDEDIR) $(DATADIR) $(MANDIR) $(PYTHONDIR))
check_places = $(if $(wrong_places),$(error these are no absolute paths without blanks: $(wrong_places)))

# A path of the .pc file: below ${prefix} if it can be, so that the folder can be moved as a whole.
below_prefix = $(patsubst $(PREFIX)/%,$${prefix}/%,$(1))

.PHONY: install uninstall deb

install: all
	$(check_places)
	$(call each_installed,put)
	ln -sfn libkorzhinay.so.$(VERSION) "$(DESTDIR)$(LIBDIR)/$(SONAME)"
	ln -sfn $(SONAME) "$(DESTDIR)$(LIBDIR)/libkorzhinay.so"
	sed -e 's|@PREFIX@|$(PREFIX)|' -e 's|@LIBDIR@|$(call below_prefix,$(LIBDIR))|' \
		-e 's|@INCLUDEDIR@|$(call below_prefix,$(INCLUDEDIR))|' -e 's|@VERSION@|$(VERSION)|' \
		packaging/korzhinay.pc.in | $(call put,644,/dev/stdin,$(LIBDIR)/pkgconfig/korzhinay.pc)
	@[ -n "$(DESTDIR)" ] || echo "Installed. If $(LIBDIR) is one of the loader's folders, let root run ldconfig"

# Folders that are the project's own go too, if nothing else is in them; Python compiles modules where they are.
uninstall:
	$(check_places)
	$(call each_installed,take)
	rm -f "$(DESTDIR)$(LIBDIR)/$(SONAME)" "$(DESTDIR)$(LIBDIR)/libkorzhinay.so" "$(DESTDIR)$(LIBDIR)/pkgconfig/korzhinay.pc"
	$(if $(PYTHONDIR),rm -rf "$(DESTDIR)$(PYTHONDIR)/korzhinay/__pycache__")
	@for folder in "$(DESTDIR)$(DATADIR)/doc/korzhinay/examples" "$(DESTDIR)$(DATADIR)/doc/korzhinay" $(if $(PYTHONDIR),"$(DESTDIR)$(PYTHONDIR)/korzhinay"); do \
		[ ! -d "$$folder" ] || rmdir --ignore-fail-on-non-empty "$$folder" || exit 1; done

deb: all
	@packaging/deb $(VERSION)
