# `make` proves and builds the program as the gate does, and leaves it at bin/clpa; `make demo` shows it at once; `make dist`
# packs it for machines that have nothing of this.
PROGRAM := bin/clpa
PREFIX ?= /usr/local
SHARE = $(DESTDIR)$(PREFIX)/share
# Where zsh and fish look for completions. Fish looks below /usr/local only where XDG_DATA_DIRS names it;
# FISH_COMPLETIONS=/etc/fish/completions serves without.
ZSH_COMPLETIONS ?= $(PREFIX)/share/zsh/site-functions
FISH_COMPLETIONS ?= $(PREFIX)/share/fish/vendor_completions.d

.PHONY: build demo test dist install clean rt

build: rt
	tools/build

demo:
	tools/demo

test: rt
	.ci/run

dist: build
	tools/dist $(PROGRAM)

# docs/INSTALLED.md becomes the README of those who have it installed.
install:
	@[ -x $(PROGRAM) ] || { echo 'make install: there is no $(PROGRAM): run make first' >&2; exit 1; }
	install -d $(DESTDIR)$(PREFIX)/bin $(SHARE)/man/man1 $(SHARE)/bash-completion/completions \
	    $(DESTDIR)$(ZSH_COMPLETIONS) $(DESTDIR)$(FISH_COMPLETIONS) $(SHARE)/clpa \
	    $(SHARE)/doc/clpa/docs $(SHARE)/doc/clpa/benchmarks $(SHARE)/doc/clpa/examples
	install -m 755 $(PROGRAM) $(DESTDIR)$(PREFIX)/bin/clpa
	install -m 644 docs/clpa.1 $(SHARE)/man/man1/clpa.1
	install -m 644 completions/clpa.bash $(SHARE)/bash-completion/completions/clpa
	install -m 644 completions/_clpa $(DESTDIR)$(ZSH_COMPLETIONS)/_clpa
	install -m 644 completions/clpa.fish $(DESTDIR)$(FISH_COMPLETIONS)/clpa.fish
	for file in examples/*; do \
	    [ -d $$file ] || { install -m 755 $$file $(SHARE)/clpa && \
	    ln -sf ../../../clpa/$${file##*/} $(SHARE)/doc/clpa/examples; } || exit 1; \
	done
	sed 's|/usr/local/|$(PREFIX)/|g' docs/INSTALLED.md > $(SHARE)/doc/clpa/README.md
	chmod 644 $(SHARE)/doc/clpa/README.md
	install -m 644 CHANGELOG.md CONTRIBUTING.md VERSION $(SHARE)/doc/clpa
	install -m 644 $(filter-out docs/INSTALLED.md,$(wildcard docs/*.md)) $(SHARE)/doc/clpa/docs
	install -m 644 benchmarks/README.md benchmarks/LEVERS.md benchmarks/ratios.svg $(SHARE)/doc/clpa/benchmarks
	install -m 644 crates/clpa/data/service.log $(SHARE)/doc/clpa/examples
	for file in logrotate/service systemd/clpa-archive.service systemd/clpa-archive.timer; do \
	    install -d $(SHARE)/doc/clpa/examples/$${file%/*} && \
	    sed 's|/usr/local/share/clpa|$(PREFIX)/share/clpa|g' examples/$$file > $(SHARE)/doc/clpa/examples/$$file && \
	    chmod 644 $(SHARE)/doc/clpa/examples/$$file || exit 1; \
	done

clean:
	rm -rf bin dist crates/*/out

rt:
	@tools/needs-rt
