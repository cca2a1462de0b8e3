# make        proves and builds the program, puts it at build/ix, and asks the sample collection a question
# make test   the gate: proves every crate from nothing, tries the must-fail edits, runs the tests and the program
# make install PREFIX=/usr/local   puts the program, its man page, completions and notices below PREFIX (and DESTDIR)
# make uninstall PREFIX=/usr/local takes these away again
# make clean  takes away what was built, and the proofs that were kept
# make check-program   runs build/ix whole, as a process, on worked examples, pipes, full devices and refused files
# make check-faults    refuses each request for memory, each read and each write of build/ix in turn, and forges its files (docs/proofs/faults.md)
# make check-archive   kills `ix add` and `ix remove` at each system call and by a rule, fills the disk, reads beside a writer
# make lib    proves crates/ix_c and builds the library for C, Python and Rust: build/libix.a, build/libix.so, header, ix.pc
# make check-lib  checks that library from C, Python and Rust, and against an oracle
# make check-docs  runs the sessions of README and guide and the cookbook's recipes, and looks at links, names and lines
# make check-people    runs collect/ix-collect on mails, files and tables of every kind
# make check-examples  runs the cookbook, the builds in pieces, what is installed, the notices and the pictures
#             (wants of Debian: apt install parallel python3-distributed zsh fish mandoc)
RT := $(shell command -v rt 2> /dev/null)
PREFIX ?= /usr/local
DATA = $(DESTDIR)$(PREFIX)/share
# How many checks of the gate run side by side: one a processor, where there are 5 GB for each (the largest takes 6, the four
# largest together 21).
# By itself rt ci guesses from a crate's lines what its check takes, 10 GB of the largest, and runs two on 24 GB.
LANES = $(shell awk '/MemAvailable/ { lanes = int($$2 / 5000000) } \
    END { "nproc" | getline most; print lanes < 1 ? 1 : lanes < most ? lanes : most }' /proc/meminfo)

.PHONY: all test check-docs check-program check-faults check-archive check-people check-examples lib check-lib install uninstall clean toolchain

all: toolchain
	@mkdir -p build
	@share/prove.py ix
	@cd crates/ix && rt run -- --help > ../../build/prove.log 2>&1 || (cat ../../build/prove.log >&2; exit 1)
	@cp crates/ix/out/ix build/ix
	@echo "built build/ix; asking: build/ix ask examples/mail.txt 'contract AND NOT hotel'"
	@build/ix ask examples/mail.txt 'contract AND NOT hotel'
	@share/notices.py --whole > build/NOTICES || { rm -f build/NOTICES; echo "no build/NOTICES, which make install wants" >&2; }

test: toolchain
	@echo "the gate: every proof from nothing, the must-fail edits, the tests, the program .."
	@RT_JOBS=$${RT_JOBS:-$(LANES)} rt ci

check-docs: all
	@tests/check_docs.py build/ix
	@examples/check-cookbook.sh build/ix

check-program: all
	@tests/check_calls.py
	@tests/check_program.py build/ix
	@tests/check_outputs.py build/ix

check-faults: all
	@tests/check_faults.py build/ix
	@tests/check_outputs.py build/ix --only beside --seconds 60

check-archive: all
	@tests/check_archive.py build/ix

check-people:
	@if command -v mypy > /dev/null; then mypy --strict --cache-dir=/dev/null collect/ix_collect; \
	    else echo "skipped: types, since there is no mypy (Debian: apt install mypy)"; fi
	@tests/check_collect.py

check-examples: all
	@examples/check-all.sh build/ix

lib: toolchain
	@mkdir -p build
	@share/prove.py ix_c
	@include/build.sh
	@echo "built build/libix.a, build/libix.so, build/include/ix.h; from Python: cd python; python3 -m doctest -v ix.py"

check-lib: lib
	@tests/check_library.sh

# The program has to be there already, so that an installing root needs no toolchain.
install:
	@test -x build/ix && test -f build/NOTICES || { echo "there is no build/ix or build/NOTICES yet: run make first" >&2; exit 1; }
	install -D build/ix $(DESTDIR)$(PREFIX)/bin/ix
	install -D -m 644 -t $(DATA)/man/man1 share/ix.1 share/ix-collect.1
	install -D -m 644 -t $(DATA)/ix/ix_collect collect/ix_collect/*.py
	install -m 755 collect/ix-collect $(DATA)/ix
	ln -sf ../share/ix/ix-collect $(DESTDIR)$(PREFIX)/bin/ix-collect
	install -D -m 644 share/ix.bash $(DATA)/bash-completion/completions/ix
	install -D -m 644 share/ix-collect.bash $(DATA)/bash-completion/completions/ix-collect
	install -D -m 644 -t $(DATA)/zsh/site-functions share/_ix share/_ix-collect
	install -D -m 644 -t $(DATA)/fish/vendor_completions.d share/ix.fish share/ix-collect.fish
	install -D -m 644 build/NOTICES $(DATA)/doc/ix/NOTICES

uninstall:
	rm -f $(DESTDIR)$(PREFIX)/bin/ix $(DATA)/man/man1/ix.1 $(DATA)/bash-completion/completions/ix
	rm -f $(DESTDIR)$(PREFIX)/bin/ix-collect $(DATA)/man/man1/ix-collect.1 $(DATA)/bash-completion/completions/ix-collect
	rm -f $(DATA)/zsh/site-functions/_ix-collect $(DATA)/fish/vendor_completions.d/ix-collect.fish
	rm -rf $(DATA)/ix
	rm -f $(DATA)/zsh/site-functions/_ix $(DATA)/fish/vendor_completions.d/ix.fish $(DATA)/doc/ix/NOTICES
	@rmdir $(DATA)/doc/ix 2> /dev/null || true

clean:
	rm -rf build crates/*/out bench/*/out bench/out

toolchain:
ifeq ($(RT),)
	@echo "ix is written in Rattle, and its command 'rt' is not on the PATH: without it nothing can be proved or built" >&2
	@exit 1
endif
