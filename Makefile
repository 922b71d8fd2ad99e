# The command dovetenon over the proved library, and all that is installed with it.
#   make            builds both into target/; needs rt and a C compiler
#   make test       tries the command; needs python3 too
#   make install    PREFIX (/usr/local) and DESTDIR say where
PREFIX = /usr/local

library = target/staticlib/libexport.a
program = target/dovetenon/dovetenon
to = $(DESTDIR)$(PREFIX)

.PHONY: all test install

all: $(program)

$(library): $(shell find crates crates.txt -name out -prune -o -type f -print) command/library
	command/library
	touch $@

$(program): $(library) include/dovetenon.h command/build $(wildcard command/*.c command/*.h)
	command/build dovetenon

test: all
	command/test

install: all
	install -d $(to)/bin $(to)/include $(to)/lib $(to)/share/man/man1
	install -m 755 $(program) $(to)/bin/dovetenon
	install -m 644 include/dovetenon.h $(to)/include/dovetenon.h
	install -m 644 $(library) $(to)/lib/libdovetenon.a
	install -m 644 command/dovetenon.1 $(to)/share/man/man1/dovetenon.1
