# Targets for the host program; included by the Makefile at the root.
#
#   host      the proved library, in crates/hingrezh/out, and the command, in target/
#   install   command, header, archive, pkg-config file and man page below PREFIX
#   dist      the same as a tar ball with a checksum, in DIST
#   compare   library, plain Rust and the oracle on random inputs
#   bench     the tables of docs/PERFORMANCE.md
#   stored    the stored runs of the programs replay, restricts, texts, pgsolver_runs and expansions, written anew
#
# HINGREZH_LIB names an archive built elsewhere: then neither Rattle nor a proof is needed. ORACLE is the Rust original
# behind the same words; where it was not named and is not there, `compare` and `bench` say so and go on without it.
ORACLE ?= ../shared/oracle
PREFIX ?= /usr/local
DESTDIR ?=
DIST ?= target/dist
HOST := target/host/release
VERSION := $(shell sed -n 's/^version = "\(.*\)"/\1/p' host/Cargo.toml)
CARGO_BUILD := cargo build --release --offline --manifest-path host/Cargo.toml --target-dir target/host

.PHONY: host install dist oracle compare bench stored

ifeq ($(HINGREZH_LIB),)
# The command says with which toolchain its library was proved.
export HINGREZH_TOOLCHAIN := $(shell rt version 2>/dev/null)
LIBRARY := crates/hingrezh/out/libhingrezh.a
# What the library is proved from: with the folders inside a crate, so that a file that is taken away is noticed too.
SOURCES := $(shell find crates -mindepth 2 \( -name must-fail -o -name out \) -prune -o -print) crates.txt
# Only `make run` shows a game before the proofs.
FIRST_LOOK := $(if $(filter-out run,$(MAKECMDGOALS)),,host/make/first-look)

$(LIBRARY): $(SOURCES)
	@host/make/tools rt rust
	@$(FIRST_LOOK)
	@host/make/library
else
LIBRARY := $(abspath $(HINGREZH_LIB))
export HINGREZH_LIB := $(LIBRARY)

$(LIBRARY):
	@echo "HINGREZH_LIB names $@, and there is no such file" >&2; exit 1
endif

host: $(LIBRARY)
	@host/make/tools rust
	@$(CARGO_BUILD) --bin hingrezh

install: host
	host/make/install $(HOST)/hingrezh $(LIBRARY) $(VERSION) "$(DESTDIR)$(PREFIX)"

dist: host
	host/make/dist $(HOST)/hingrezh $(LIBRARY) $(VERSION) "$(DIST)"

oracle:
	@if [ -f $(ORACLE)/Cargo.toml ]; then \
	  cargo build --release --offline --manifest-path $(ORACLE)/Cargo.toml --target-dir target/oracle; \
	elif [ "$(origin ORACLE)" = file ]; then echo "no oracle at $(ORACLE): left out"; \
	else echo "ORACLE names $(ORACLE), and there is no Cargo.toml in it" >&2; exit 1; fi

# The comparisons and the benchmark are no part of the crate that other programs use.
by_oracle = $(if $(wildcard $(ORACLE)/Cargo.toml),--oracle target/oracle/release/$(1))
compare bench stored: TESTING = @host/make/tools rust && $(CARGO_BUILD) --features testing

compare: $(LIBRARY) oracle
	$(TESTING) --bin compare
	$(HOST)/compare $(call by_oracle,oracle)

bench: $(LIBRARY) oracle
	$(TESTING) --bin bench
	$(HOST)/bench $(call by_oracle,bench)

# Writes the stored runs of the programs replay, restricts, texts, pgsolver_runs and expansions anew; needs the oracle.
stored: $(LIBRARY) oracle
	$(TESTING) --bin store
	$(HOST)/store target/oracle/release/oracle crates
