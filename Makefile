# `make` proves and builds the program, `make check` also runs all tests, and `make install` installs what is built.

PREFIX = /usr/local
DESTDIR =

.PHONY: all check install uninstall

all:
	./ultra --build

check:
	./test

install:
	./ultra --install '$(DESTDIR)$(PREFIX)'

uninstall:
	./ultra --uninstall '$(DESTDIR)$(PREFIX)'
