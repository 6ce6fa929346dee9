# Each target is one or two commands.
.PHONY: build install example test case cases mutants bench shapes real refused replaced trials each explain how lists make-names flatten-test docs clean

PREFIX ?= /usr/local

# Proves kconf and all crates below it, and builds the program crates/kconf/out/kconf.
build:
	cd crates/kconf && rt run -- --help > /dev/null

# Installs the program, the companions with their module, man pages and completions below $(PREFIX). DESTDIR is put before it, for packages.
install: build
	install -D -m 755 -t $(DESTDIR)$(PREFIX)/bin crates/kconf/out/kconf tools/kconf-flatten tools/kconf-tree
	install -D -m 644 -t $(DESTDIR)$(PREFIX)/lib/kconf tools/kconf_companion.py
	install -D -m 644 -t $(DESTDIR)$(PREFIX)/share/man/man1 man/kconf.1 man/kconf-flatten.1 man/kconf-tree.1
	install -D -m 644 -t $(DESTDIR)$(PREFIX)/share/zsh/site-functions completions/_kconf completions/_kconf-flatten completions/_kconf-tree
	for it in kconf kconf-flatten kconf-tree; do \
		install -D -m 644 completions/$$it.bash $(DESTDIR)$(PREFIX)/share/bash-completion/completions/$$it || exit; done

# Packs what install installs, the licences and the documents into dist/kconf-VERSION-linux-x86_64.tar.gz, and writes its
# SHA-256 checksum beside it.
.PHONY: dist
dist: build
	tools/dist.sh

# Packs the same files as a Debian package, dist/kconf_VERSION-1_amd64.deb. It needs dpkg-deb.
.PHONY: deb
deb: build
	tools/deb.sh

# Builds kconf without proofs and runs it on the example: the full .config on standard output, all else on standard error.
EXAMPLE = $(shell cd crates/kconf_firmware/data && find . -name rows -prune -o -type f -printf '%P ')
example:
	@echo 'Without proofs: kconf --config start.config --out /dev/stdout Kconfig site.config' >&2
	@cd crates/kconf && rt try $(foreach file,$(EXAMPLE),--data $(file)=../kconf_firmware/data/$(file)) \
		-- --config start.config --out /dev/stdout Kconfig site.config
	@echo 'This build of kconf is not proved. The command that proves and builds it: make build' >&2

# Runs the gate: every proof, mutant, test and program of the repository.
test:
	rt ci

# The program that `case` and `cases` run.
KCONF ?= crates/kconf/out/kconf

# Runs one case and prints its files, its command and what comes of it: make case NAME=choice/user_member_hidden
case:
	crates/kconf_cases/run.py --show $(KCONF) $(NAME)

# Runs all cases with any program that takes kconf's arguments: make cases KCONF=FILE
cases:
	crates/kconf_cases/run.py $(KCONF)

# Tests the companions on small trees: kconf --flat on their flat files beside kconfiglib on the trees themselves, and kconf-tree.
flatten-test: build
	tools/tests/flatten.py
	tools/tests/tree.py

# Tries every mutant, those of the gate too: the prover must refuse each. It proves the crates below each first, so it takes hours.
mutants:
	mutants/try.sh

# Times kconf, the kernel's conf and kconfiglib, if they are installed, and draws docs/bench.svg.
bench: build
	bench/run.sh

# Runs worst-case inputs at three sizes each. Fails if time or memory grows faster than the input.
shapes: build
	bench/shapes.sh

# Runs kconf and kconf-tree on real trees, fetched from Debian by apt, beside the trees' own tools, and builds some of them.
real: build
	bench/real.sh

# Fails each allocation, open, read and write of some runs in turn, and checks status, diagnostics and files.
refused: build
	cd crates/kc_call_turns && rt run > /dev/null
	bench/refused.sh

# Checks --replace: equal texts, links, modes, pipes, refusals, concurrent runs and killed runs.
replaced: build
	bench/replace.py

# Tries full disks, a closed standard error, folders without write permission, many warnings and the like.
trials: build
	bench/trials.py

# Compares --each with the runs that it stands for, over generated trees with random configurations and faults.
each: build
	bench/each.py

# Compares --list-new and --list-gone with what trying each answer shows, on random trees. Any program: make lists KCONF=FILE
lists:
	bench/lists.py $(KCONF) 3000

# Compares explanations, lost values and the list of new symbols with help with an independent reader, on random trees. Any program:
# make explain KCONF=FILE
explain:
	bench/explain.py $(KCONF) 0 100

# Asks what must be set, on random trees, and checks each answer. On tiny trees it tries every fragment. Any program: make how KCONF=FILE
how:
	bench/how.py $(KCONF) 0 350
	bench/how_all.py $(KCONF) 0 2000

# Asks GNU make which names it reads in a dependency file, and looks that kconf writes those and refuses the others.
make-names: build
	bench/make_names.py crates/kconf/out/kconf

# Runs the examples of docs/formats.md and the makefiles of docs/make.md, checks the documents (options, version, links, line
# lengths), and looks whether each mutant still fits the code. Counts the figures of docs/figures.md anew.
docs: build
	mutants/check.py
	bench/figures.py >docs/figures.md.new && mv docs/figures.md.new docs/figures.md
	bench/docs.py crates/kconf/out/kconf

clean:
	rm -rf crates/*/out dist
