# Installs opcmds and packs it. The program is the one that tools/build proved; PROGRAM=FILE takes another one.
#
#   make install [DESTDIR=] [PREFIX=/usr/local]     program, manual, completions, unit of systemd, examples; the
#                                                   library and the page, if tools/library and tools/page made them
#   make install-library [DESTDIR=] [PREFIX=..]     these alone
#   make uninstall [DESTDIR=] [PREFIX=/usr/local]   removes them again; a database stays
#   make deb                                        a Debian package, in out/
#   make dist                                       a tar file of program and manual with their sums, in out/

PREFIX = /usr/local
DESTDIR =
PROGRAM = crates/opcmds/out/opcmds
OUT = out
# (none is installed if it is not there)
LIBRARY = crates/opc_c/out/library
# (what proved says fails the recipe if there is no such program)
PROVED = proof=$$(tools/proved $(if $(filter-out crates/opcmds/out/opcmds,$(PROGRAM)),"$(PROGRAM)")) || exit 1;

help:
	@sed -n 's/^#//p' Makefile | head -n 8

install:
	@$(PROVED) packaging/install "$(DESTDIR)" "$(PREFIX)" "$(PROGRAM)" "$$proof"
	@[ ! -e "$(LIBRARY)/libopcmds.so" ] || $(MAKE) -s install-library

install-library:
	@proof=$$(tools/proved "$(LIBRARY)/libopcmds.so") || exit 1; \
	packaging/install-library "$(DESTDIR)" "$(PREFIX)" "$(LIBRARY)" "$$proof"

uninstall:
	@packaging/install --remove "$(DESTDIR)" "$(PREFIX)"
	@packaging/install-library --remove "$(DESTDIR)" "$(PREFIX)"

deb dist:
	@$(PROVED) packaging/$@ "$(PROGRAM)" "$$proof" "$(OUT)"

.PHONY: help install install-library uninstall deb dist
