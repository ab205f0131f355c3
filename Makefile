# make build    proves the crates below the program side by side, builds it, leaves it at bin/ciserver, and compares it with dist's program
# make demo     takes dist's program where it was built of these sources, has it check CI files, and runs a whole pipeline with it; else it builds first
# make test     the gate: every proof from nothing, the must-fail edits, the tests, the programs' stored runs, and memory refused
# make release  puts the program that was built into dist/
# make deb      the Debian packages of the program and of the runner, in out/ (packaging/README.md)
# make install  lays them below PREFIX, /usr/local where it isn't given; DESTDIR stands before each path

.PHONY: build demo test release deb install

build:
	.ci/build
	.ci/compare

demo:
	.ci/provide
	@echo
	bin/ciserver check crates/ci_config_texts/data/pipeline.yml
	bin/ciserver check crates/ci_config_texts/data/job_named_twice.yml; test $$? = 1
	@echo
	MAKELEVEL=0 examples/demo.sh

test:
	.ci/gate

release:
	.ci/release

deb:
	packaging/deb.sh

install:
	.ci/provide
	packaging/install.sh server
	packaging/install.sh runner
