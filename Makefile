# Each target is a few commands. README.md says what plhost is; .ci/run is the whole gate.

.PHONY: demo demo-native call build test bench tools
.DEFAULT_GOAL := demo

# Compiles a small C# program and prints what it imports, and a small C library for RISC-V and calls a function of it. plhost is
# built the quick way, and nothing is proved.
demo:
	@command -v mcs >/dev/null || { echo "demo: mcs, the C# compiler, is missing: installs mono-mcs with apt-get"; checks/tools mono-mcs; }
	@command -v riscv64-linux-gnu-gcc >/dev/null || { echo "demo: the C compiler for RISC-V is missing: installs gcc-riscv64-linux-gnu with apt-get"; checks/tools gcc-riscv64-linux-gnu; }
	mkdir -p build
	mcs -codepage:utf8 -out:build/imports.exe examples/imports/Imports.cs
	@echo "demo: builds plhost the quick way, with no proof, and has it print the imports of build/imports.exe"
	cd crates/plhost && rt try --data imports.exe=../../build/imports.exe -- imports imports.exe
	@if command -v riscv64-linux-gnu-gcc >/dev/null; then $(MAKE) --no-print-directory demo-native; else echo "demo: without riscv64-linux-gnu-gcc no library is built"; fi

# Builds the C library of examples/native, and calls its checksum of the digits 1 to 9.
demo-native:
	$(MAKE) --no-print-directory -C examples/native
	@echo "demo: has plhost call a function of build/libnative.so; the CRC-32 of the digits 1 to 9 is known to be cbf43926"
	cd crates/plhost && rt try --data libnative.so=../../build/libnative.so -- native libnative.so checksum_of_digits

# Calls a function of a library, as `make call LIB=libtwice.so CALL="twice 21"`. plhost is built the quick way.
call:
	@test -f "$(LIB)" || { echo 'call: say LIB=FILE and CALL="SYMBOL WORD.."'; exit 1; }
	@cd crates/plhost && rt try --data "$(notdir $(LIB))=$(abspath $(LIB))" -- native "$(notdir $(LIB))" $(CALL)

# Proves plhost and the crates below it, tries it on a small assembly, and leaves it as build/plhost.
build:
	cd crates/plhost && rt run -- imports data/app.dll
	mkdir -p build
	cp crates/plhost/out/plhost build/plhost

# The whole gate: every proof, edit that must be refused, and program, then the checks.
test:
	.ci/run

# Timings. Give PLHOST=PROGRAM to time another build than build/plhost, and NATIVE_BENCH=PROGRAM another than the one that
# bench/native proves and builds.
bench: $(if $(PLHOST),,build)
	bench/imports
	bench/types
	bench/native
	bench/library

# Installs what checks, examples and benches want. What cannot be had is a line, and no failure.
tools:
	@checks/tools
