# The ways in; `make` alone prints them.

SCRIPT ?= examples/first.sand
PREFIX ?= /usr/local
DESTDIR ?=

.DEFAULT_GOAL := help
.PHONY: help try run install test dist picture

help:
	@bash .ci/ways

try:
	@bash .ci/try "$(SCRIPT)"

run:
	@[ -r "$(SCRIPT)" ] || { echo "there is no script $(SCRIPT)"; exit 1; }
	@bash .ci/build
	@bash .ci/show "$(SCRIPT)"

install:
	@bash .ci/install "$(DESTDIR)$(PREFIX)"

test:
	@bash .ci/test

dist:
	@bash .ci/dist

picture:
	@bash .ci/picture
