# make            proves and builds the library and the programs, below target/
# make install    puts them under PREFIX (below DESTDIR, if that is given); make uninstall takes them away
# make check      the gate
PREFIX = /usr/local
DESTDIR =
CC = gcc
export PREFIX DESTDIR CC

all:
	@lib/make.sh

install:
	@lib/make.sh
	@lib/install.sh

uninstall:
	@lib/install.sh --remove

check:
	@.ci/run

.PHONY: all install uninstall check
