# make demo         builds the program if it isn't there, and recuts a stream (IN=stream.mp4: yours, SAMPLES=15)
# make build        proves and builds the program
# make test         proves everything from nothing, and runs every test
# make mutants      tries the mutants that the tests leave out
# make lib          proves and builds the C library: c/out/libfmp4.a and libfmp4.so
# make c_tests      runs the tests and examples of the C library
# make install      puts the program, its manual page and completions below PREFIX, and the C library where it is built
# make uninstall    removes these
# make dist         packs what install installs: a tar.gz, and Debian packages
# make clean        removes all that was built
# install, uninstall, clean and manual need no Rattle, nor do c_tests, recipes, recuts and play where program and library
# are built. The other targets are for working on fmp4.
IN ?= crates/test_streams/data/audio.mp4
SAMPLES ?= 15
PREFIX ?= /usr/local
# Where libraries are below PREFIX.
LIBDIR ?= lib
BIN = $(DESTDIR)$(PREFIX)/bin
INCLUDE = $(DESTDIR)$(PREFIX)/include
SHARE = $(DESTDIR)$(PREFIX)/share
LIB = $(DESTDIR)$(PREFIX)/$(LIBDIR)
# The way from fmp4.pc to PREFIX, and the words that fmp4.pc and CMake's files have for the place.
UP = $(shell echo "$(LIBDIR)/pkgconfig" | sed 's|[^/][^/]*|..|g')
WITH_PLACE = sed "s|@VERSION@|$$(cat VERSION)|; s|@LIBDIR@|$(LIBDIR)|; s|@UP@|$(UP)|"
# A manual page with the version; and a file that all may read, whatever the umask.
WITH_VERSION = sed "1s/ fmp4 / \"fmp4 $$(cat VERSION)\" /; s/^The number in VERSION.*/fmp4 $$(scripts/version)/"
PUT = install -m 644 /dev/stdin

.PHONY: demo build lib c_tests bench_jobs test mutants install install_lib uninstall dist clean \
    refusals program recipes recuts play manual bench bench_instructions

demo:
	@scripts/demo "$(IN)" "$(SAMPLES)"

build:
	@scripts/build fmp4 boxes

lib:
	@scripts/lib

# Compares the C library with the program, and tries its calls: those that are built, where there is no rt.
c_tests:
	@if command -v rt > /dev/null; then $(MAKE) -s build lib; fi
	@scripts/counted c/tests/all_tests

bench_jobs:
	@scripts/build bench_jobs

test:
	@scripts/needs_rt
	@if command -v python3 > /dev/null; then \
	    scripts/counted scripts/words && scripts/counted scripts/check_edits && \
	    scripts/counted scripts/pictures --check crates states in_place inputs; fi
	@echo "proving everything from nothing and running the tests: one to three hours on 4 cores" >&2
	@if command -v cc > /dev/null; then \
	    scripts/lib_beside scripts/counted scripts/prove_all && \
	    scripts/counted scripts/refused_allocations && scripts/counted c/tests/short_tests; \
	else scripts/counted scripts/prove_all; fi
	@if command -v valgrind > /dev/null; then scripts/counted bench/instructions "as written" --room 3; fi
	@scripts/left_out

# Tries the mutants in crates/*/wrong and crates/*/uncompiled, with what is built.
mutants: build
	@scripts/mutants
	@scripts/mutants --uncompiled

install:
	@test -x crates/fmp4/out/fmp4 || { echo "there is no crates/fmp4/out/fmp4: run 'make build' first" >&2; exit 1; }
	@command -v strip > /dev/null || { echo "there is no strip on the PATH, which binutils has" >&2; exit 1; }
	install -d "$(SHARE)/man/man1" "$(SHARE)/bash-completion/completions" "$(SHARE)/zsh/site-functions" \
	    "$(SHARE)/fish/vendor_completions.d" "$(BIN)"
	install -s -m 755 crates/fmp4/out/fmp4 "$(BIN)/fmp4"
	install -m 755 scripts/playlist "$(BIN)/fmp4-playlist"
	$(WITH_VERSION) docs/fmp4.1 | $(PUT) "$(SHARE)/man/man1/fmp4.1"
	$(WITH_VERSION) docs/fmp4-playlist.1 | $(PUT) "$(SHARE)/man/man1/fmp4-playlist.1"
	install -m 644 completions/fmp4.bash "$(SHARE)/bash-completion/completions/fmp4"
	install -m 644 completions/_fmp4 "$(SHARE)/zsh/site-functions/_fmp4"
	install -m 644 completions/fmp4.fish "$(SHARE)/fish/vendor_completions.d/fmp4.fish"
	@if [ -e c/out/libfmp4.a ]; then $(MAKE) -s install_lib; fi

# Puts the C library with its headers, manual page, fmp4.pc and CMake's files below PREFIX.
install_lib:
	@test -e c/out/libfmp4.a || { echo "there is no c/out/libfmp4.a: run 'make lib' first" >&2; exit 1; }
	@command -v strip > /dev/null || { echo "there is no strip on the PATH, which binutils has" >&2; exit 1; }
	install -d "$(LIB)/pkgconfig" "$(LIB)/cmake/fmp4" "$(INCLUDE)" "$(SHARE)/man/man3"
	install -m 644 c/out/libfmp4.a "$(LIB)/libfmp4.a"
	strip --strip-debug "$(LIB)/libfmp4.a"
	@if [ -e c/out/libfmp4.so.0 ]; then \
	    install -m 644 c/out/libfmp4.so.0 "$(LIB)/libfmp4.so.0" && strip --strip-unneeded "$(LIB)/libfmp4.so.0" && \
	    ln -sf libfmp4.so.0 "$(LIB)/libfmp4.so"; fi
	install -m 644 c/fmp4.h c/fmp4.hpp "$(INCLUDE)/"
	$(WITH_PLACE) c/fmp4.pc.in | $(PUT) "$(LIB)/pkgconfig/fmp4.pc"
	@for name in fmp4-config.cmake fmp4-config-version.cmake; do \
	    $(WITH_PLACE) c/$$name.in | $(PUT) "$(LIB)/cmake/fmp4/$$name" || exit; done
	$(WITH_VERSION) docs/fmp4.3 | $(PUT) "$(SHARE)/man/man3/fmp4.3"
	@if [ -z "$(DESTDIR)" ]; then scripts/found_by "$(PREFIX)" "$(LIB)" >&2; fi

# Removes what install and install_lib put there, and the folders that are empty then.
uninstall:
	rm -f "$(BIN)/fmp4" "$(BIN)/fmp4-playlist" "$(SHARE)/man/man1/fmp4.1" "$(SHARE)/man/man1/fmp4-playlist.1" \
	    "$(SHARE)/bash-completion/completions/fmp4" "$(SHARE)/zsh/site-functions/_fmp4" \
	    "$(SHARE)/fish/vendor_completions.d/fmp4.fish" "$(LIB)/libfmp4.a" "$(LIB)/libfmp4.so" "$(LIB)/libfmp4.so.0" \
	    "$(LIB)/pkgconfig/fmp4.pc" "$(LIB)/cmake/fmp4/fmp4-config.cmake" "$(LIB)/cmake/fmp4/fmp4-config-version.cmake" \
	    "$(INCLUDE)/fmp4.h" "$(INCLUDE)/fmp4.hpp" "$(SHARE)/man/man3/fmp4.3"
	@for folder in "$(SHARE)/man/man1" "$(SHARE)/man/man3" "$(SHARE)/man" "$(SHARE)/bash-completion/completions" \
	    "$(SHARE)/bash-completion" "$(SHARE)/zsh/site-functions" "$(SHARE)/zsh" "$(SHARE)/fish/vendor_completions.d" \
	    "$(SHARE)/fish" "$(SHARE)" "$(LIB)/pkgconfig" "$(LIB)/cmake/fmp4" "$(LIB)/cmake" "$(LIB)" "$(INCLUDE)" "$(BIN)" "$(DESTDIR)$(PREFIX)"; do \
	    rmdir "$$folder" 2> /dev/null || true; done

# Packs what install installs, for machines without Rattle.
dist: build lib
	@scripts/dist

# Removes programs, libraries and packages, and what was kept of the proofs.
clean:
	rm -rf crates/*/out c/out dist

# Runs the program with each of its allocations refused in turn, and a Feeder; make test does so too.
refusals: build bench_jobs
	@scripts/refused_allocations

# Builds the program, where there is an rt.
program:
	@if command -v rt > /dev/null; then $(MAKE) -s build; fi

# Runs the command lines of the recipes and of the front page, compares what they print, and runs the examples of the
# manual pages.
recipes: program
	@scripts/recipes docs/RECIPES.md README.md docs/fmp4.1 docs/fmp4-playlist.1

# Recuts ffmpeg's streams in many ways, and checks what is written by a parser of its own.
recuts: program
	@scripts/recut_real_streams

# Recuts ffmpeg's streams, plays recut streams in the clients that are installed, and has these read playlists.
play: recuts
	@scripts/play
	@scripts/play_playlists

# Formats the manual page and checks that all is there.
manual:
	@scripts/check_manual

# Measures the program beside others; see bench/README.md.
bench: build lib bench_jobs
	@bench/large_boxes
	@bench/small_boxes
	@bench/many_tracks
	@bench/hostile_moofs
	@bench/pieces
	@bench/samples
	@bench/split
	@bench/feeder
	@bench/c_library
	@bench/hostile_streams

# Counts instructions by callgrind, and says where they are over 5 in 100 more than bench/instructions.txt keeps.
# It counts the programs as the gate builds them, for x86-64-v2, and leaves these.
bench_instructions:
	@CPU=x86-64-v2 scripts/build fmp4 boxes
	@CPU=x86-64-v2 scripts/build bench_jobs
	@bench/instructions
