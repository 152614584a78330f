# Builds, tests, proves and installs. `make` needs the Rattle kit (rt on the path) and Python 3.9 or
# later, `make install` only Python, `make test` also pytest. README.md says more.
PREFIX = /usr/local
DESTDIR =
# Folders below PREFIX, as lib/x86_64-linux-gnu.
LIBDIR = lib
INCLUDEDIR = include
MANDIR = share/man
ROOT = --prefix "$(PREFIX)" --destdir "$(DESTDIR)"
FOLDERS = --libdir "$(LIBDIR)" --includedir "$(INCLUDEDIR)" --mandir "$(MANDIR)"
# A python3 that has pytest, where there is one.
PYTHON = $(shell for it in python3 /usr/bin/python3; do \
    $$it -c 'import pytest' 2>/dev/null && echo $$it && exit; done; echo python3)
# How many tests run at a time where pytest-xdist is there, and words for pytest, as -k WORD.
JOBS = auto
TESTS =
PYTEST = $(PYTHON) -B -m pytest $(shell $(PYTHON) -c 'import xdist' 2>/dev/null && \
    printf -- '-n %s' $(JOBS)) $(TESTS)
PROGRAMS = det det_lane det_twin

all: programs library

# Proved programs are taken where they are there; else they are compiled, without their proofs.
programs:
	@$(MAKE) --no-print-directory -j3 $(PROGRAMS)

$(PROGRAMS):
	$(PYTHON) -B tools/build.py $@

# The static library for C and C++ is out/lib/libdeterministic_client.a.
library:
	bin/build_library

# The page for a browser, out/page/det_page.html. `make install` installs it if it is there.
page:
	$(PYTHON) -B tools/build_page.py

# The tests after the gate, over the programs that are there, proved or compiled.
test: has-pytest
	$(PYTEST)

has-pytest:
	@$(PYTHON) -c 'import pytest' 2>/dev/null || { echo "no python3 here has pytest: install the \
	Debian packages python3-pytest and python3-pytest-xdist" >&2; exit 1; }

# The gate: how many lines of definitions the theorem rests on, the table of crates, the manual pages,
# the completions, all proofs, edits that must fail, tests in Rattle, and how many minutes of a
# processor each crate took. If it passed, out/proved has the time when it began.
prove:
	$(PYTHON) tools/definitions.py --check
	$(PYTHON) tools/crate_table.py --check
	$(PYTHON) tools/manual.py --check
	$(PYTHON) tools/completion.py --check
	mkdir -p out && touch out/proving
	$(PYTHON) tools/gate_times.py rt ci
	mv out/proving out/proved

# Both: the gate, the library over what it proved, and the tests over the proved programs.
check: has-pytest prove
	bin/build_library --prove
	$(PYTEST) --prove

# Copies what `make` built, and builds nothing.
install:
	$(PYTHON) tools/install.py $(ROOT) $(FOLDERS)

uninstall:
	$(PYTHON) tools/install.py --uninstall $(ROOT)

# Packs what `make` built into Debian packages, and builds nothing.
deb:
	$(PYTHON) -B tools/debian.py

# Records that stand in out/ stay.
clean:
	rm -rf crates/*/out out/compiled out/lib out/page out/debian out/pytest out/proving out/proved

.PHONY: all programs $(PROGRAMS) library page test has-pytest prove check install uninstall deb clean
