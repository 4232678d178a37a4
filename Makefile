# Each target calls the toolchain's `rt`.
PREFIX ?= /usr/local
POD ?= $(CURDIR)/examples/pod
PROFILE ?= $(CURDIR)/profile.txt

.PHONY: demo test install

# The main job on an example: the text profile of a pod.
demo:
	cd crates/gocov && rt run -- covdata textfmt -i=$(POD) -o=$(PROFILE)
	cat $(PROFILE)

# Every proof, must-fail edit, test and program, from nothing.
test:
	rt ci

# Proves, builds and copies the program.
install:
	cd crates/gocov && rt run -- covdata textfmt -i=$(POD) -o=$(PROFILE)
	install -D -m 755 crates/gocov/out/gocov $(PREFIX)/bin/gocov
