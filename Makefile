# What people and machines run here. It needs the Rattle kit (rt), Rust (cargo, rustc) and make, for
# the examples a C compiler too, and downloads nothing.
CARGO = cargo
CFLAGS ?= -O2 -Wall -Wextra
STATICLIB = target/staticlib/libclassifier.a

# what a command prints is shown only if it fails
quietly = mkdir -p target && { { $(1); } >target/make.log 2>&1 || { cat target/make.log; exit 1; }; }

# a program in target/bin: it is proved, built and run once, with no argument and no input
built = (cd crates/$(1) && rt run </dev/null) && mkdir -p target/bin && cp crates/$(1)/out/$(1) target/bin/$(1)

.PHONY: help demo test check-cli examples bench every-word expected archive program

help: ## list the targets
	@sed -n 's/^\([a-z-]*\):.*## /\1\t/p' Makefile | expand -t 12

demo: program ## replay a sample trace, print its branch history and check it (proves first: some minutes)
	@$(call quietly,$(call built,check_dump))
	@mkdir -p target/demo
	@sh examples/demo.sh target/bin/replay target/bin/check_dump target/demo

test: ## prove everything and run every test: the gate
	@scripts/demands-imports
	@cd model && $(CARGO) test --release --offline
	@scripts/gate

check-cli: program ## hold arguments, output and complaints of replay, classify and check_dump to the model's
	@$(call quietly,$(call built,classify) && $(call built,check_dump))
	@cd model && $(CARGO) test --release --offline --quiet --test check_cli -- --ignored

examples: archive ## build and run the C and the Rust program of examples/
	@mkdir -p target/examples
	@$(CC) $(CFLAGS) -Iinclude -o target/examples/classify_c examples/classify.c $(STATICLIB)
	@rustc --edition 2021 -O -L target/staticlib -l static=classifier -o target/examples/classify_rs examples/classify.rs
	@echo "C:" && target/examples/classify_c
	@echo "Rust:" && target/examples/classify_rs

bench: archive program ## time the classifier, replay and single steps beside Rust programs
	@$(call quietly,$(call built,step_bench))
	@$(call quietly,(cd bench && $(CARGO) test --release --offline))
	@cd bench && $(CARGO) build --release --offline --quiet
	@cd bench && target/release/bench
	@cd bench && target/release/replay
	@cd bench && target/release/steps

every-word: archive ## compare with the model on all 2^32 words, switch off and on (some five minutes)
	@cd bench && $(CARGO) run --release --offline --quiet --bin every_word

expected: ## write the programs' expected output anew, from the model
	@cd model && $(CARGO) run --release --offline --quiet --bin expected -- --write

program:
	@echo "Proving and building replay (some minutes, nothing if it is built already) ..."
	@$(call quietly,$(call built,replay))

archive:
	@$(call quietly,(cd crates/classifier_c && rt lib) && mkdir -p target/staticlib && cp crates/classifier_c/out/libclassifier_c.a $(STATICLIB))
