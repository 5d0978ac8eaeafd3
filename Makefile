# Kettlesalmon: the compiler and runtime `ioac`.

PREFIX ?= /usr/local
PROGRAM := crates/ioac_program/out/ioac_program
EXAMPLE := examples/counter

.PHONY: all demo test planted hostile examples pictures bench install clean

# Proves and builds the program.
all: $(PROGRAM)

$(PROGRAM): crates.txt $(wildcard crates/*/src/*.rt crates/*/src/*/*.rt)
	@tools/kit
	cd crates/ioac_program && rt run -- replay $(CURDIR)/$(EXAMPLE)/counter.ioa < stdin

# Shows the main job on an example. Until `make` has run, the program is tried without its proofs.
demo:
	@[ -x $(PROGRAM) ] || tools/kit
	@sh examples/demo.sh $(PROGRAM)

# The whole gate. It leaves no new file in the checkout. Its verdict is of one kit, which is told first and last; of another one with KIT=any.
test:
	@tools/kit --gate
	@tools/pages --texts
	@FILES=$$(sh examples/files.sh) && export FILES && RT_JOBS=$${RT_JOBS:-$$(tools/lanes)} && export RT_JOBS && tools/planted --texts && tools/believed && tools/planted_tests && \
	  tools/planted --gate -- rt ci && sh examples/alone.sh $(PROGRAM) && sh examples/threads.sh $(PROGRAM) && \
	  sh examples/objects.sh $(PROGRAM) && sh examples/logs.sh $(PROGRAM) && \
	  sh examples/library.sh $(PROGRAM) && tools/pages $(PROGRAM) && tools/manual $(PROGRAM) && sh examples/run.sh $(PROGRAM)
	@tools/kit --gate

# Tries the planted bugs, over what checks kept: those of all crates, or of CRATES.
planted:
	@tools/kit
	@tools/planted $(CRATES)

# What no proof reaches, tried on the program that stands, and of memory on the calls below it, too: memory that is refused, at each request in turn,
# devices that fail, and bytes of strangers. Wants `cc`.
hostile: all
	@tools/kit
	@tools/refused_tests
	@tools/refused $(PROGRAM)
	@cd crates/ioa_tests && rt test -- calls_answer
	@tools/refused_calls crates/ioa_tests/out/ioa_tests_tests
	@sh examples/devices.sh $(PROGRAM)
	@tools/foreign $(PROGRAM)

# The examples on the program that stands.
examples: all
	@sh examples/run.sh $(PROGRAM)

# Makes the pictures of the pages anew. Needs Graphviz.
pictures: all
	@tools/pages $(PROGRAM) --pictures

# Figures: how time and memory grow with the list, with the source, with the components, and with the code that is verified; how fast
# the protocols of the library run; what an item of a loop costs; what many seeds in one call cost; how fast objects are read and written; what names cost that were chosen to collide, and other bytes of strangers; and
# what threads gain. Last, some thousand runs on threads are replayed.
bench: all
	@sh bench/ratios.sh $(PROGRAM)
	@sh bench/compose.sh $(PROGRAM)
	@sh bench/verify.sh
	@sh bench/links.sh $(PROGRAM)
	@sh bench/loops.sh $(PROGRAM)
	@sh bench/seeds.sh $(PROGRAM)
	@sh bench/objects.sh $(PROGRAM)
	@sh bench/names.sh $(PROGRAM)
	@sh bench/hostile.sh $(PROGRAM)
	@sh bench/threads.sh $(PROGRAM)
	@sh bench/soak.sh $(PROGRAM) 50

install: all
	install -d $(DESTDIR)$(PREFIX)/bin
	install -m 755 $(PROGRAM) $(DESTDIR)$(PREFIX)/bin/ioac
	install -d $(DESTDIR)$(PREFIX)/share/man/man1
	install -m 644 docs/ioac.1 $(DESTDIR)$(PREFIX)/share/man/man1/ioac.1
	install -d $(DESTDIR)$(PREFIX)/share/bash-completion/completions $(DESTDIR)$(PREFIX)/share/zsh/site-functions $(DESTDIR)$(PREFIX)/share/fish/vendor_completions.d
	install -m 644 editors/completions/ioac.bash $(DESTDIR)$(PREFIX)/share/bash-completion/completions/ioac
	install -m 644 editors/completions/_ioac $(DESTDIR)$(PREFIX)/share/zsh/site-functions/_ioac
	install -m 644 editors/completions/ioac.fish $(DESTDIR)$(PREFIX)/share/fish/vendor_completions.d/ioac.fish

clean:
	rm -rf crates/*/out
