# netrev: see README.md. It needs the toolchain (`rt`), make and the usual tools of a shell, and for the gate a C compiler, Python 3.10 or
# later, and pytest. `python3 python NAME` runs a module that is written in Python.

BUILT = crates/netrev/out/netrev
VERSION = $(shell sed -n 's/^VERSION = "\(.*\)"/\1/p' python/netrev/system/version.py)
FILE = examples/first.jsonl
PREFIX = /usr/local
MINUTES = 5
COUNT = 10000
TO = $(call quoted,$(DESTDIR)$(PREFIX))
LIB = $(TO)/lib/netrev
SHARE = $(TO)/share
INSTALLED = $(shell sed -n 's/^include = \[\(.*\)\]/\1/p' pyproject.toml | tr -d '"*,')

# A user's text is an argument as it stands: neither make nor the shell runs what is in it.
TYPED = FILE SCRIPT FILES NETREV PROGRAM DESTDIR PREFIX VERSION MINUTES COUNT SEED STEPS GO ONLY TESTS CPU
$(foreach name,$(TYPED),$(if $(filter command environment,$(origin $(name))),$(eval override $(name) := $$(value $(name)))))
quoted = '$(subst ','\'',$(1))'
each = $(foreach word,$(1),$(call quoted,$(word)))

.PHONY: ready help look run hunt test lint refused loopback hostile upgrades system fuzz fuzz-around mutants agree companion sizes netrev examples share bench pace real trials \
	install install-files vsix package deb release try-deb clean

# If NETREV names a program, it is used as is. Otherwise netrev is proved and built here.
ifdef NETREV
GIVEN := $(abspath $(NETREV))
ready:
	@test -x $(call quoted,$(NETREV)) || { echo NETREV=$(call quoted,$(NETREV)) is no program >&2; exit 1; }
else
GIVEN =
NETREV = $(BUILT)
ready: netrev
endif
export NETREV := $(abspath $(NETREV))
export CPU

# Lists the targets.
help:
	@awk '/^# / { text = text (text ? " " : "") substr($$0, 3); next } \
		/^[a-z-]+:/ && text { sub(/:.*/, ""); sub(/[.:;]( .*)?$$/, "", text); printf "make %-11s %s\n", $$0, text } \
		{ text = "" }' Makefile

# Opens FILE=my.jsonl in nrdb, with an unproved netrev that takes a minute or two to compile. With SCRIPT=my.script it runs those commands
# instead. The compiled netrev stays in out/look until a source file changes.
look:
	@python3 scripts/look.py $(call quoted,$(FILE)) $(if $(SCRIPT),$(call quoted,$(SCRIPT)))

# Proves and builds netrev, and runs the first example.
run: ready
	@echo
	@sh examples/play.sh first

# Opens FILE=my.jsonl in nrdb, with the proved netrev, which is built first (docs/reference/NRDB.md).
hunt: ready
	@./nrdb -- $(call quoted,$(FILE))

# Runs the gate, which proves and tests everything: installs what it uses (scripts/setup.sh), checks each proof, tries each edit that must fail, and runs all tests.
test:
	@sh scripts/setup.sh
	@sh scripts/gate.sh

# Runs black and mypy, which are Debian packages (pyproject.toml configures them).
lint:
	@sh scripts/lint.sh

# Tests running out of memory, and bad usage: refuses each allocation of the program and of each library call in turn, in shared
# sessions too.
refused: ready
	@sh scripts/prove.sh nr_refused
	crates/nr_refused/out/nr_refused all
	@sh scripts/refused.sh
	@sh scripts/pytest.sh --beside $(addprefix python/tests/program/,each_call.py serving/refused_serving.py)

# Tests shared sessions over the loopback: up to 64 fronts at a time, and callers that misbehave.
loopback: ready
	@sh scripts/pytest.sh python/tests/program/serving/loopback.py

# Tests bad recordings and bad command lines: each reason, faulty lines, headers and answers, each prefix of a short recording.
hostile: ready
	@sh scripts/pytest.sh --beside python/tests/program/hostile.py

# Tests `netrev upgrade`, `netrev changes` and `netrev suspects`, compared with stored texts, with the model in Python, and with `print`.
upgrades: ready
	@sh scripts/pytest.sh --beside $(addprefix python/tests/program/,upgrades.py changes.py suspects.py)

# Tests the program against the system: closed or full streams, odd files, signals, little memory.
system: ready
	@sh scripts/pytest.sh $(addprefix python/tests/program/,system.py lengths.py serving/endurance.py)

# Tests the largest recordings and sessions that are allowed.
sizes: ready
	@sh scripts/pytest.sh python/tests/program/sizes.py

# Tests nrdb and the fuzzer with the built program, and runs the hunts of examples/hunts.
companion: ready
	@sh scripts/pytest.sh --beside python/tests/program/nrdb python/tests/program/tools python/tests/program/serving/test_replies.py

# Compares netrev and nrdb with a model in Python on random recordings and commands: `make fuzz MINUTES=30 SEED=7`. Differences
# stay in out/fuzz (CONTRIBUTING.md). Not part of the gate.
fuzz: ready
	@python3 python dev.fuzz --minutes $(call quoted,$(MINUTES)) --seed $(call quoted,$(SEED))

# Tries the recorder, nrdb, the adapter and the page on damaged or random input: `make fuzz-around MINUTES=30 SEED=7`. The gate tries a
# few of each.
fuzz-around: ready
	@python3 python dev.fuzz.around --minutes $(call quoted,$(MINUTES)) --seed $(call quoted,$(SEED))

# Tries mutants of netrev, nrdb and netrev_go against their tests: `make mutants SEED=1 COUNT=200`, or `FILES=python/netrev/run/searches.py`. It
# prints a table of those that survive (CONTRIBUTING.md). Not part of the gate.
mutants: ready
	@python3 scripts/mutants.py around $(if $(SEED),--seed $(call quoted,$(SEED))) --count $(if $(filter file,$(origin COUNT)),200,$(call quoted,$(COUNT))) \
		$(call each,$(FILES))

# Compares netrev with netrev_plain, whose world consists of lists, on the examples, bad recordings, the largest sizes, and random cases:
# `make agree COUNT=20000 SEED=1`.
agree: ready
	@sh scripts/prove.sh netrev_plain
	@sh scripts/pytest.sh --beside python/tests/program/agree.py --random $(call quoted,$(COUNT)) --seed $(call quoted,$(or $(SEED),1))

# Proves netrev and leaves it at crates/netrev/out/netrev; what hasn't changed isn't proved again. `make netrev CPU=x86-64-v3` builds it for
# processors that have AVX2, with the same proofs; `make bench CPU=x86-64-v3` measures that build, and builds the baseline for AVX2 too.
netrev:
	@sh scripts/prove.sh

# Runs all examples, compared with their replies, and a session that two users share.
examples: ready
	@sh examples/play_all.sh

# Shares a session on the first example between two users, until it is interrupted.
share: ready
	@echo "Join from two terminals:  nc 127.0.0.1 21840  and  nc 127.0.0.1 21841"
	@$(call quoted,$(NETREV)) serve examples/first.jsonl --port 21840 --fronts 2

# Measures netrev on recordings of up to 1,000,000 steps, beside plain Rust without proofs: `make bench STEPS="10000 100000"` for fewer.
# With NETREV_BEFORE=FILE each table also has columns for an older netrev. Then it records a C program with GDB, shares sessions, searches with several
# workers, and asks nrdb.
bench: ready
	@python3 python dev.bench.run $(call each,$(STEPS))
	@echo
	@python3 python dev.bench.copies
	@echo
	@python3 python dev.bench.gdb_record
	@echo
	@python3 python dev.bench.sessions
	@echo
	@python3 python dev.bench.searches
	@echo
	@python3 python dev.bench.nrdb_answers
	@echo
	@$(MAKE) --no-print-directory pace

# Measures the machine alone, beside plain Rust without proofs: replay, undo and search. `make pace STEPS=100000` for fewer than 1,000,000
# steps. It proves bench/pace/crate first.
pace:
	@sh bench/pace/prove.sh
	@python3 python dev.bench.pace $(call each,$(lastword $(STEPS)))

# Installs netrev, nrdb and netrev-go with their man pages and completions below PREFIX: `make install PREFIX=~/.local`. With NETREV=FILE it
# installs that program and proves nothing. Python is compiled too, because users may not be allowed to write there. Compiled files
# are checked by a checksum of their source, not by its time, and another version of Python ignores them.
install: ready install-files

install-files:
	install -d $(TO)/bin $(LIB) $(SHARE)/man/man1 $(SHARE)/bash-completion/completions $(SHARE)/zsh/vendor-completions
	install $(call quoted,$(or $(PROGRAM),$(GIVEN),$(BUILT))) $(TO)/bin/netrev
	install nrdb $(TO)/bin/nrdb
	install tools/go/netrev-go $(TO)/bin/netrev-go
	(cd python && tar -cf - --mode=u=rwX,go=rX --exclude=__pycache__ __main__.py $(INSTALLED)) | tar -xf - --no-same-owner -C $(LIB)
	umask 022 && cd $(LIB) && python3 -m compileall -q -f --invalidation-mode checked-hash .
	for name in netrev nrdb netrev-go; do \
		python3 scripts/man.py $$name > $(SHARE)/man/man1/$$name.1 && \
		python3 scripts/completion.py bash $$name > $(SHARE)/bash-completion/completions/$$name && \
		python3 scripts/completion.py zsh $$name > $(SHARE)/zsh/vendor-completions/_$$name || exit 1; \
	done

# Packs the extension for VS Code as out/netrev.vsix, without node, and checks it.
vsix:
	@mkdir -p out
	@python3 scripts/vsix.py out/netrev.vsix && echo out/netrev.vsix

# Packs the program that passed the gate as out/netrev-VERSION-linux-x86_64.tar.gz, and tries the archive. `make test` must have
# passed here. NETREV=FILE is accepted only if FILE has that program's checksum. VERSION=other names another version.
package:
	@sh scripts/package.sh $(call quoted,$(VERSION)) $(call each,$(GIVEN))
	@sh scripts/try_package.sh $(call quoted,out/netrev-$(VERSION)-linux-x86_64.tar.gz)

# Makes out/netrev_VERSION_amd64.deb from that archive, and checks it with lintian if that is installed. The conditions and variables are
# those of `make package`.
deb: package
	@sh scripts/deb.sh $(call quoted,$(VERSION))

# Leaves the Debian package, the archive, SHA256SUMS and the release notes (from CHANGELOG) in out/release. `make test` must have passed here,
# and no file of the repository may have changed since then.
release:
	@sh scripts/unchanged.sh
	@$(MAKE) --no-print-directory deb
	@sh scripts/release.sh $(call quoted,$(VERSION))

# Installs the Debian package in a throw-away root (debootstrap), and does there what README shows.
try-deb:
	@sh scripts/try_deb.sh $(call quoted,out/netrev_$(VERSION)_amd64.deb)

# Records Go's own tests, those of other projects and the samples, and compares all answers and lock words: `make real` with the
# `go` on the PATH, `make real GO=1.27` or `make real GO=all` with Debian's releases, which are fetched but not installed. A
# release takes about an hour. `make real ONLY=net/rpc` runs some packages, `ONLY='^net$' TESTS='^TestUnix'` some tests of a package. The gate runs a
# small part.
real: ready
	@sh scripts/pytest.sh $(addprefix python/tests/real_go/,go_tool.py go_kept.py go_planted.py go_signals.py go_tests.py go_waits.py)
	@python3 python dev.recorder.real --only $(call quoted,$(ONLY)) --tests $(call quoted,$(TESTS)) --go $(call quoted,$(GO))

# Tests that recording changes nothing about a program, whatever happens to its log, and loses no run: `make trials GO="1.19 1.27"`. A release
# takes about half an hour; the gate runs only a part.
trials: ready
	@python3 python tests.trials.go_untouched $(call each,$(GO))
	@python3 python tests.trials.go_damaged $(call each,$(GO))
	@python3 python tests.trials.go_killed $(call each,$(GO))

# Removes what was built and checked in this folder, but not what `make test` stores elsewhere on this machine.
clean:
	rm -rf out crates/*/out
	find . -name __pycache__ -prune -exec rm -rf {} +
