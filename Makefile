# `make help` lists the targets. README.md, "Build", says what they need.

PREFIX ?= /usr/local
DESTDIR ?=

PROVED := crates/refheap/out/refheap
UNPROVED := crates/refheap/out/refheap-unproved
ARCHIVE := crates/refheap_c/out/librefheap_c.a
LIBRARY := crates/refheap_c/out
HEADER := examples/embed_c/refheap.h
version := $(shell sed -n 's/^.define REFHEAP_VERSION "\(.*\)"/\1/p' $(HEADER))
# The part of the version with which the C interface may change.
abi := $(basename $(version))
BIN := $(DESTDIR)$(PREFIX)/bin
INCLUDE := $(DESTDIR)$(PREFIX)/include
LIB := $(DESTDIR)$(PREFIX)/lib

.PHONY: all quick run test check lib install uninstall help

all:
	@checks/need.sh kit python3
	@echo "Proving and building $(PROVED). README.md, \"Build\", says how long it takes. Ctrl-C keeps what is proved."
	@python3 checks/build.py
	@echo "Built $(PROVED)."

quick:
	@checks/need.sh kit python3
	@python3 checks/quick.py

run:
	@program="$(PROGRAM)" note=; \
	if [ -z "$$program" ]; then \
	    program=$(PROVED); \
	    [ -x $$program ] || program=$(UNPROVED); \
	    [ -x $$program ] || $(MAKE) -s quick || exit 1; \
	fi; \
	case $$program in *-unproved) note=" (NOT PROVED, slow)";; esac; \
	echo "A heap of 16 cells in $$program$$note." >&2; \
	exec "$$program" run --cells 16

test:
	@checks/need.sh kit python3
	@echo "Running the gate: README.md, \"Test\", says how long it takes. It removes what was built before."
	@python3 checks/gate_times.py rt ci

check: PROGRAM ?= $(PROVED)
check:
	@checks/need.sh python3 cc strace
	@[ -x "$(PROGRAM)" ] || \
	    { echo "make: there is no $(PROGRAM): run make first, or name one: make check PROGRAM=.." >&2; exit 1; }
	@checks/run "$(PROGRAM)"

lib:
	@checks/need.sh kit python3 cc ar
	@echo "Proving and building the C library. README.md, \"Build\", says how long it takes. Ctrl-C keeps what is proved."
	@python3 checks/build.py refheap_c
	@checks/library.sh $(ARCHIVE) $(LIBRARY) librefheap.so.$(abi)
	@echo "Built $(LIBRARY)/librefheap.a and $(LIBRARY)/librefheap.so. Their header is $(HEADER)."

install:
	@[ -x $(PROVED) ] || [ -f $(LIBRARY)/librefheap.a ] || \
	    { echo "make: nothing is built: run make or make lib first (an unproved program is not installed)" >&2; exit 1; }
	@if [ -x $(PROVED) ]; then \
	    install -d "$(BIN)" && install -m 755 $(PROVED) "$(BIN)/refheap" && echo "installed $(BIN)/refheap"; \
	else echo "left out the program: it is not built (make)"; fi
	@if [ -f $(LIBRARY)/librefheap.a ]; then \
	    install -d "$(INCLUDE)" "$(LIB)/pkgconfig" && \
	    install -m 644 $(HEADER) "$(INCLUDE)/refheap.h" && \
	    install -m 644 $(LIBRARY)/librefheap.a "$(LIB)/librefheap.a" && \
	    install -m 755 $(LIBRARY)/librefheap.so "$(LIB)/librefheap.so.$(abi)" && \
	    ln -sf librefheap.so.$(abi) "$(LIB)/librefheap.so" && \
	    sed -e 's|@PREFIX@|$(PREFIX)|' -e 's|@VERSION@|$(version)|' examples/embed_c/refheap.pc.in \
	        >"$(LIB)/pkgconfig/refheap.pc" && \
	    chmod 644 "$(LIB)/pkgconfig/refheap.pc" && echo "installed the C library in $(LIB), its header in $(INCLUDE)"; \
	else echo "left out the C library: it is not built (make lib)"; fi

# Removes the folders too, once they are empty, unless they are the system's own.
uninstall:
	@rm -f "$(BIN)/refheap" "$(INCLUDE)/refheap.h" "$(LIB)/librefheap.a" "$(LIB)/librefheap.so" \
	    "$(LIB)/librefheap.so.$(abi)" "$(LIB)/pkgconfig/refheap.pc"
	@echo "removed what make install puts into $(DESTDIR)$(PREFIX)"
	@case "$(DESTDIR)$(PREFIX)" in /usr|/usr/local) exit 0;; esac; \
	for folder in "$(LIB)/pkgconfig" "$(LIB)" "$(INCLUDE)" "$(BIN)"; do \
	    [ ! -d "$$folder" ] || rmdir --ignore-fail-on-non-empty "$$folder"; \
	done; \
	folder="$(DESTDIR)$(PREFIX)"; \
	while [ -d "$$folder" ] && [ "$$folder" != "$(DESTDIR)" ] && [ "$$folder" != / ] && rmdir "$$folder" 2>/dev/null; do \
	    folder=$$(dirname "$$folder"); \
	done

help:
	@echo "make                     prove the program and build it: $(PROVED)"
	@echo "make quick               compile it within three minutes, NOT PROVED: $(UNPROVED)"
	@echo "make run                 open a session in the terminal, with a heap of 16 cells;"
	@echo "                         with the proved program if it is built, else with the unproved one"
	@echo "make test                run the gate: each proof and each test; removes what was built before"
	@echo "make check PROGRAM=..    test a built program: what the proofs do not cover"
	@echo "make lib                 prove the C library and build it: librefheap.a, librefheap.so"
	@echo "make install             install what is built (PREFIX=$(PREFIX), DESTDIR=)"
	@echo "make uninstall           remove what was installed"
