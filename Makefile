# `make unproved` builds the program without a proof, in some minutes: crates/unitex/out/unitex-unproved, whose --version says
# that it is unproved.
# `make example` searches the text of examples/ by its graphs, in as much time, and leaves no program.
# `make build` proves all crates on which the program depends, lowest first, and builds it: crates/unitex/out/unitex. From
# nothing that takes some four hours of a processor, as its parts add up.
# `make tour` runs every example of the documents by the built program, and compares with what they show.
# `make rows` runs the rows of the top call by the built program over real files, and compares, also where a file can't be read
# or is too long.
# `make install PREFIX=DIR` puts the built program, its manual page, the documents and their examples under DIR.
# `make bench` times searches beside GNU grep, the tokens of a text beside a C program, dictionaries beside wc and
# grep, and images beside a map of the crate fst, which it compiles from Debian's package of its sources.
# `make hostile` runs each command over the inputs that cost it most, and fails where time or memory grows more than it may.
# `make images` changes each byte of two small images, and compares what the built program says with a reading by itself.
# `make wrong-bodies NAMES="ux_dela ux_dict"` tries the wrong bodies of these crates that the gate leaves out, each of which the
# prover has to refuse; `make wrong-bodies SINCE=COMMIT` those of each crate whose own files differ from that commit's, and
# `make wrong-bodies` all of them, which takes hours where little of it was tried before. With KEPT=1 it takes the crates from what
# `rt ci` passed on this machine, in place of checking them first.
# `make gate` is the merge gate and the test command.

PREFIX ?= /usr/local

.PHONY: unproved example build tour rows install bench hostile images wrong-bodies gate

# A run by `rt try` is given copies of these, since it sees no files but those that it is handed.
FILES := time.grf part.grf text.txt alphabet.txt

# In the order of crates.txt, which begins with the lowest layer. Those of tests and of rows aren't needed by the program.
CRATES := $(filter-out ux_tests_files ux_tests_dictionaries ux_tests_inflect ux_tests_cascade ux_tests_search unitex_rows,$(shell sed -n 's/^\([a-z0-9_]*\).*:.*/\1/p' crates.txt))

unproved:
	@.ci/unproved.py

example:
	@echo 'unitex locate time.grf text.txt alphabet.txt, unproved: compiling, some minutes'
	@cd crates/unitex && rt try $(foreach file,$(FILES),--data $(file)=../../examples/$(file)) \
		-- locate time.grf text.txt alphabet.txt
	@echo 'This run was unproved. "make build" proves the program before it builds it.'

build:
	@log=$$(mktemp); number=0; for crate in $(CRATES); do \
		number=$$((number + 1)); echo "crate $$number of $(words $(CRATES)): $$crate"; \
		case $$crate in unitex) task='run -- --version';; *) task=lib;; esac; \
		(cd crates/$$crate && rt $$task) >"$$log" 2>&1 || { cat "$$log" >&2; rm "$$log"; exit 1; }; \
	done; rm "$$log"
	@echo 'proved and built: crates/unitex/out/unitex'

tour:
	@docs/names.py
	@docs/tour.py

rows:
	@.ci/rows.py
	@.ci/faults.py

install:
	@test -x crates/unitex/out/unitex || { echo 'build the program first: make build' >&2; exit 1; }
	install -D -m 755 crates/unitex/out/unitex $(DESTDIR)$(PREFIX)/bin/unitex
	install -D -m 644 docs/unitex.1 $(DESTDIR)$(PREFIX)/share/man/man1/unitex.1
	install -D -m 644 -t $(DESTDIR)$(PREFIX)/share/doc/unitex README.md CONTRIBUTING.md CHANGELOG.md
	install -D -m 644 -t $(DESTDIR)$(PREFIX)/share/doc/unitex/docs docs/*.md docs/unitex.1
	install -D -m 644 -t $(DESTDIR)$(PREFIX)/share/doc/unitex/examples $(filter-out %.py,$(wildcard examples/*))
	install -D -m 755 -t $(DESTDIR)$(PREFIX)/share/doc/unitex/examples examples/graph.py

bench:
	@bench/locate_word.sh
	@bench/grammars.py
	@bench/tokenize.py
	@bench/check.py
	@bench/dico.py
	@bench/masks.py
	@bench/outputs.py
	@bench/policies.py
	@bench/contexts.py
	@bench/concord.py
	@bench/images.py
	@bench/compiled.py
	@bench/cascades.py

hostile:
	@bench/hostile.py

images:
	@bench/image_bytes.py

wrong-bodies:
	@.ci/wrong_bodies.py $(if $(SINCE),--since $(SINCE)) $(if $(KEPT),--kept) $(NAMES)

gate:
	@.ci/run
