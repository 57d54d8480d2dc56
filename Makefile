# The short ways. PREFIX is where `make install` puts the program.
PREFIX ?= /usr/local
program = crates/aftersight/out/aftersight

.PHONY: all demo test install

# the proved program
all:
	cd crates/aftersight && rt run -- run data/first.bin data/first.txt --with cover

# a firmware whose input overwrites a place to return to, run by the program built without its proofs; findings give status 1
demo:
	cd crates/aftersight && rt try -- run $(CURDIR)/guest/built/door.elf $(CURDIR)/guest/examples/door.txt || test $$? -eq 1

# every proof, planted mistake and test
test:
	.ci/run

install: all
	install -d $(DESTDIR)$(PREFIX)/bin
	install -m 755 $(program) $(DESTDIR)$(PREFIX)/bin/aftersight
