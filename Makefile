# make: proves and builds the program. make check: the whole test. make install: program, manual page and tools.
PREFIX ?= /usr/local
BIN = $(DESTDIR)$(PREFIX)/bin
MAN = $(DESTDIR)$(PREFIX)/share/man/man1
SHARE = $(DESTDIR)$(PREFIX)/share/timetable
TOOLS = apart border join many order sheet twice why

.PHONY: all check install

all:
	tools/build

check:
	.ci/run

# What is installed is what was built: the program needs the C library alone. The tools look for it there, in ../../../bin.
install:
	@test -x built/timetable || { echo "make install: no program is built yet: make" >&2; exit 1; }
	install -D -m 755 built/timetable $(BIN)/timetable
	test ! -x built/timetable-border || install -D -m 755 built/timetable-border $(BIN)/timetable-border
	install -D -m 644 docs/timetable.1 $(MAN)/timetable.1
	install -d $(SHARE)/tools/lib
	install -m 755 $(addprefix tools/,$(TOOLS)) $(SHARE)/tools
	install -m 644 tools/lib/*.py tools/lib/*.css $(SHARE)/tools/lib
