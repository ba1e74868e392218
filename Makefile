# What these call says more by --help. `make help` lists them.
PREFIX := /usr/local
FOLDER := out/release

build: ## builds the program and the archive for C into out/unproved, without a proof
	tools/unproved program
	tools/unproved archive

test: ## runs the tests over these, in minutes
	./test

check: ## the gate: proves all, and runs every test
	./check

prove: ## proves and builds the program and the archive for C
	./prove

install: ## installs what is proved for C and C++ below PREFIX
	packaging/install $(PREFIX)

release: ## packs what is proved into FOLDER
	packaging/release $(FOLDER)

clean: ## removes what was built without a proof, and what tests wrote
	rm -rf out bindings/*/out bindings/*/target bench/*/target

help: ## lists these
	@sed -n 's/^\([a-z]*\): ## /make \1 /p' Makefile | sed 's/ /\t/2' | expand -t 16

.PHONY: build test check prove install release clean help
