# The quick start, the tests and the installation of slapkit. The toolchain's command is rt.

PREFIX ?= /usr/local
ZSH_COMPLETIONS ?= $(PREFIX)/share/zsh/site-functions
# The program that is tried, installed or packed: the one that is built here, or one that was built elsewhere (make install PROGRAM=PATH).
BUILT = crates/slapkit/out/slapkit
PROGRAM = $(BUILT)

.PHONY: try demo test trial bugs install deb

# Runs the changes of the example on its copy by a build without any proof: in about two minutes.
try:
	examples/try.sh

# Proves and builds the program and runs the example: the changes on the copy, and then the undo file on the new copy.
demo: $(PROGRAM)
	examples/demo.sh $(PROGRAM)

# The gate: proves every crate, runs all tests, and tries the program that was built.
test:
	.ci/run

# Runs the program on files and on large inputs, with each of its calls for memory and on files refused in turn, and kills it at many moments.
trial: $(PROGRAM)
	tests/trial/trial.py $(PROGRAM)

# Plants the bugs that the gate leaves out, of all crates or of one (make bugs CRATE=dir_ldif): the prover must refuse each.
bugs:
	tests/prover/bugs.py $(CRATE)

# The program, its manual pages, and completions for bash, zsh and fish.
install: $(PROGRAM)
	install -D $(PROGRAM) $(DESTDIR)$(PREFIX)/bin/slapkit
	install -D -m 644 -t $(DESTDIR)$(PREFIX)/share/man/man1 share/man/man1/*.1
	install -D -m 644 share/completions/slapkit.bash $(DESTDIR)$(PREFIX)/share/bash-completion/completions/slapkit
	install -D -m 644 share/completions/_slapkit $(DESTDIR)$(ZSH_COMPLETIONS)/_slapkit
	install -D -m 644 share/completions/slapkit.fish $(DESTDIR)$(PREFIX)/share/fish/vendor_completions.d/slapkit.fish

# A Debian package of the same, slapkit_VERSION_amd64.deb. packaging/deb/try.sh tries it in a clean root.
deb: $(PROGRAM)
	packaging/deb/build.sh $(PROGRAM)

$(BUILT): crates.txt $(wildcard crates/*/src/*.rt crates/*/src/*/*.rt crates/*/specs/*.antt crates/*/specs/*/*.antt crates/*/proofs/*.antt)
	packaging/building.py prove
