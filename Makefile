# The front door. Everything here is a script that can be called by itself. MOO is the path of another program than that of these sources.

PROGRAM = $(or $(MOO),$$(.ci/program))

# the program of these sources: the shipped one, or else built. It says where it is
all:
	@program=$$(.ci/program) && echo "the program: $$program (make test tests it, make demo shows a world in a browser)"

# the tests, with the examples and the lints, on the program: side by side on all processors. SUBJECTS are some of them, as 'web shell'
test:
	@program="$(PROGRAM)" && MOO="$$program" .ci/test -j $(SUBJECTS)

# proves everything from nothing, and tests it: the gate
prove:
	@bash .ci/run

# builds the program from its sources, even if the shipped one is of these
build:
	@.ci/build

# a village to look at in a browser, until Ctrl-C
demo:
	@program="$(PROGRAM)" && web/moo-demo --moo "$$program"

PREFIX ?= /usr/local

# the program, the front, their manuals, tools and units, under PREFIX; DESTDIR is put before it
install:
	@MOO="$(MOO)" packaging/install "$(PREFIX)" "$(DESTDIR)"
	@packaging/install-web "$(PREFIX)" "$(DESTDIR)"

# the Debian packages, in out/
deb:
	@MOO="$(MOO)" packaging/deb

.PHONY: all test prove build demo install deb
