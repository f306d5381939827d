# Installs the command, the header, the library, the man page and bash completion under a prefix.
#   make                              builds the command, proving what it must, and judges the example with it
#   make install [PREFIX=/usr/local]  installs what is built; DESTDIR is put before PREFIX, for packages
#   make uninstall [PREFIX=/usr/local]
PREFIX = /usr/local
DESTDIR =
root = $(DESTDIR)$(PREFIX)
command = rust/tyvarmos/target/release/tyvarmos
library = $(or $(TYVARMOS_LIB),target/staticlib)/libshard.a

all:
	./tyvarmos judge examples/shard.db

install: $(command) $(library)
	install -D -m 755 $(command) "$(root)/bin/tyvarmos"
	install -D -m 644 include/tyvarmos.h "$(root)/include/tyvarmos.h"
	install -D -m 644 $(library) "$(root)/lib/libshard.a"
	install -D -m 644 docs/tyvarmos.1 "$(root)/share/man/man1/tyvarmos.1"
	install -D -m 644 tools/completion.bash "$(root)/share/bash-completion/completions/tyvarmos"
	install -D -m 644 -t "$(root)/share/doc/tyvarmos" LICENSE-APACHE LICENSE-MIT NOTICE

# An install builds nothing, since it may be run as root.
$(command) $(library):
	@echo "there is no $@: run make first" >&2; exit 1

uninstall:
	rm -f "$(root)/bin/tyvarmos" "$(root)/include/tyvarmos.h" "$(root)/lib/libshard.a"
	rm -f "$(root)/share/man/man1/tyvarmos.1" "$(root)/share/bash-completion/completions/tyvarmos"
	rm -rf "$(root)/share/doc/tyvarmos"

.PHONY: all install uninstall
