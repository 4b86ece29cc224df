# mukerihe: the two libraries and the command.
#
#   make            proves and builds what is older than its sources
#   make demo       README's job through files, examples/kinship.sh
#   make check      the gate
#   make install    PREFIX=/usr/local DESTDIR=: the command, its man page, the headers and the libraries
#   make uninstall  takes them away again
#
# The kit (rt) and cargo are needed here. A garden needs none of them: the command is one static file.

PREFIX = /usr/local
DESTDIR =
CARGO = cargo
INSTALL = install

libraries = target/staticlib
host = $(libraries)/libmukerihe.a
bank = $(libraries)/libmukerihe_bank.a
command = target/cli/release/mukerihe
root = $(DESTDIR)$(PREFIX)

# The libraries are proved from these; rt finds out which of them have changed.
proved := crates.txt $(shell find crates -name out -prune -o -name '*.rt' -print -o -name '*.antt' -print)
sources := include/mukerihe.rs cli/Cargo.toml cli/Cargo.lock cli/build.rs $(wildcard cli/src/*.rs)

.PHONY: all demo check install uninstall
.NOTPARALLEL:
.DELETE_ON_ERROR:

all: $(command)

$(host) $(bank) &: $(proved)
	bash tools/build.sh libraries
	touch $(host) $(bank)

$(command): $(host) $(bank) $(sources)
	CARGO_TARGET_DIR=target/cli RUSTFLAGS='-D warnings -C target-feature=+crt-static' \
	    $(CARGO) build --release --offline --locked --manifest-path cli/Cargo.toml
	touch $@

demo: $(command)
	bash examples/kinship.sh $(command)

check:
	bash .ci/run

install: $(command)
	$(INSTALL) -d $(root)/bin $(root)/include $(root)/lib $(root)/share/man/man1
	$(INSTALL) -m 755 $(command) $(root)/bin/mukerihe
	$(INSTALL) -m 644 include/mukerihe.h include/mukerihe_bank.h include/mukerihe.rs $(root)/include
	$(INSTALL) -m 644 $(host) $(bank) $(root)/lib
	$(INSTALL) -m 644 docs/mukerihe.1 $(root)/share/man/man1/mukerihe.1

uninstall:
	rm -f $(root)/bin/mukerihe $(root)/share/man/man1/mukerihe.1
	rm -f $(root)/include/mukerihe.h $(root)/include/mukerihe_bank.h $(root)/include/mukerihe.rs
	rm -f $(root)/lib/libmukerihe.a $(root)/lib/libmukerihe_bank.a
