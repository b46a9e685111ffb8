# The project's commands; `make` alone lists them. tools/help.txt is what it prints.
IMAGE ?= examples/first.bin
FILE ?= examples/first.txt
DEMO ?= examples/copy-odd.bin
SEED ?= 1
CASES ?= 200000
SERVICE_CASES ?= 300000
SWEEPS ?= 200000
PAUSES ?= 20000
SCHEDULES ?= 200000
PAIRS ?= 100000
TOUCHES ?= 100000
TEXTS ?= 20000
PARTS ?= 2000
ASM_TEXTS ?= 50000
CALLS ?= 40000
IMAGES ?= 300
N ?= 30
FROM ?= 1
PREFIX ?= /usr/local
DESTDIR ?=
BUILD ?= build
INSTALL ?=

# What was given is text: make expands none of it, and recipes find it in their environment, quoted.
override IMAGE := $(value IMAGE)
override FILE := $(value FILE)
override DEMO := $(value DEMO)
override SEED := $(value SEED)
override CASES := $(value CASES)
override SERVICE_CASES := $(value SERVICE_CASES)
override SWEEPS := $(value SWEEPS)
override PAUSES := $(value PAUSES)
override SCHEDULES := $(value SCHEDULES)
override PAIRS := $(value PAIRS)
override TOUCHES := $(value TOUCHES)
override TEXTS := $(value TEXTS)
override PARTS := $(value PARTS)
override ASM_TEXTS := $(value ASM_TEXTS)
override CALLS := $(value CALLS)
override IMAGES := $(value IMAGES)
override N := $(value N)
override FROM := $(value FROM)
override PREFIX := $(value PREFIX)
override DESTDIR := $(value DESTDIR)
override INSTALL := $(value INSTALL)

# Where make was started: what is given may be named from there, also by make -C.
CALLER := $(value PWD)
ifneq ($(words $(value BUILD)),1)
$(error make: BUILD is "$(value BUILD)": the name of a folder without blanks is asked for)
endif
ifneq ($(origin BUILD),file)
ifeq ($(filter /%,$(value BUILD)),)
override BUILD := $(CALLER)/$(value BUILD)
endif
endif
override BUILD := $(value BUILD)

# Proofs stand in crates/NAME/out/; where nothing may be written here, the crates are copied to BUILD and proved there.
ifeq ($(shell test -w . && echo yes),yes)
TREE = .
else
TREE = $(BUILD)/tree
endif

export CALLER BUILD TREE INSTALL
export IMAGE FILE DEMO SEED CASES SERVICE_CASES SWEEPS PAUSES SCHEDULES PAIRS TOUCHES TEXTS PARTS ASM_TEXTS CALLS IMAGES N FROM \
	PREFIX DESTDIR

CFLAGS ?= -O2
STRICT = -std=c11 -Wall -Wextra -Wpedantic -Wconversion -Wsign-conversion

# Comparisons and measurements take answers as the bare numbers that they are.
PLAIN = -DIOP89_PLAIN_ANSWERS

# What C gets: headers, and archives with the crate that each is made of.
HEADERS = include/iop89.h include/iop89_service.h
IOP89_LIB = $(BUILD)/libiop89.a
SERVICE_LIB = $(BUILD)/libiop89_service.a
ARCHIVES = $(IOP89_LIB) $(SERVICE_LIB)
SHARED = $(BUILD)/libiop89.so
SHARED_SERVICE = $(BUILD)/libiop89_service.so

# The library is for x86-64. Elsewhere what links it is cross-compiled (Debian: gcc-x86-64-linux-gnu,
# libc6-dev-amd64-cross) and linked -static, so that tools/x86 can run it with no x86-64 libraries at hand.
ifeq ($(shell uname -m),x86_64)
X86_CC ?= $(CC)
X86_SIZE ?= size
X86_AR ?= ar
X86_LDFLAGS ?=
X86_NEEDS = tools/need $(firstword $(X86_CC)) gcc
COUNT_NEEDS = tools/need valgrind valgrind
else
X86_CC ?= x86_64-linux-gnu-gcc
X86_SIZE ?= x86_64-linux-gnu-size
X86_AR ?= x86_64-linux-gnu-ar
X86_LDFLAGS ?= -static
X86_NEEDS = tools/need x86_64-linux-gnu-gcc gcc-x86-64-linux-gnu && \
	tools/need /usr/x86_64-linux-gnu/include/stdio.h libc6-dev-amd64-cross
COUNT_NEEDS = :
endif

# Headers are found from include/ and, with the name of their folder, from host/.
INCLUDES = -Iinclude -Ihost

# What a program is made of stands among what it depends on.
LINKED = $(filter %.c %.o %.a,$^)

# What both comparisons are made of: random cases, the emulator, and the count of what was met.
COMMON = $(addprefix host/compare/,cases.c programs.c random.c coverage.c counts.c options.c lent.c) \
	$(addprefix host/emulator/,emulator.c state_bytes.c)
COMMON_H = $(COMMON:.c=.h) $(HEADERS)
SCRIPTS = $(addprefix host/compare/,scripts.c writer.c lines.c session.c hex_texts.c) \
	$(addprefix host/emulator/,listing.c hex.c)
SCRIPTS_H = $(addprefix host/compare/,writer.h lines.h session.h hex_texts.h) $(addprefix host/emulator/,listing.h hex.h)

PROGRAMS = program-trace program-script

.PHONY: help run try script demo test lib proved-archives host install uninstall clean compare compare-scripts compare-traces selftest \
	check-examples check-papers front-door examples bench $(PROGRAMS) compiler x86-compiler count-needs always \
	option-image option-file option-demo option-cases option-calls option-images option-prefix

# What is given is tested before anything is proved, and one folder has one proof at a time.
.NOTPARALLEL:

help:
	@cat tools/help.txt

# Runs an image as channel 1 of a fresh machine and prints a line for each done step.
run: option-image program-trace
	@tools/run-program $(TREE)/crates/trace/out/trace IMAGE

# Runs the same sources in seconds, without proving them, and says so.
try: option-image
	@tools/try IMAGE

# Makes the calls of a script and prints their answers; docs/SCRIPT.md has the words.
script: option-file program-script
	@tools/run-program $(TREE)/crates/script/out/script FILE

# Runs the host program on an image, and shows the answer and every byte that changed.
demo: option-demo x86-compiler $(BUILD)/example
	@DEMO=$$(tools/option path DEMO); case "$$DEMO" in -*) DEMO=./$$DEMO ;; esac; tools/x86 $(BUILD)/example "$$DEMO"

test:
	@.ci/run

# What the variables were given; each says what is wrong with it and ends with 2.
option-image:
	@tools/option file IMAGE
option-file:
	@tools/option file FILE
option-demo:
	@tools/option file DEMO
option-cases:
	@tools/option number SEED && tools/option number CASES
option-calls:
	@tools/option number SEED && tools/option number CALLS
option-images:
	@tools/option number SEED && tools/option number IMAGES
option-prefix:
	@tools/option folder PREFIX

# A program, proved and linked; nothing is done again where it stands already.
$(PROGRAMS): program-%:
	@tools/prove program $*

# The proved library, as archives for C and shared objects.
lib: proved-archives $(ARCHIVES) $(SHARED) $(SHARED_SERVICE)

# What both archives are made of, in one go, so that what there is to prove is told once.
proved-archives:
	@tools/prove archives $(RUN_CRATES) $(filter-out $(RUN_CRATES),$(SERVICE_CRATES))

# The static library that rt leaves of a crate.
static = $(TREE)/crates/$(1)/out/lib$(1).a

# An archive is made again where a file of its crates is not what it was; their list is kept by content. The object of
# both runs stands in both archives, the same, so that either has its calls and a program that links both has it once.
RUN_CRATES = run_call_c version_call

$(IOP89_LIB): $(RUN_CRATES:%=$(BUILD)/%.sums)
	@tools/prove archives $(RUN_CRATES)
	@AR="$(X86_AR)" tools/join-archives $@ $(foreach crate,$(RUN_CRATES),$(call static,$(crate)))

# The same as shared objects, whose names have the header's version; each exports its calls alone.
VERSION := $(shell awk '$$2 == "IOP89_VERSION" { print int($$3 / 100) "." $$3 % 100; exit }' include/iop89.h)

$(SHARED): $(IOP89_LIB) | x86-compiler
	$(X86_CC) -shared -Wl,--whole-archive $(IOP89_LIB) -Wl,--no-whole-archive -Wl,-soname,libiop89.so.$(basename $(VERSION)) -o $@

$(SHARED_SERVICE): $(SERVICE_LIB) | x86-compiler
	$(X86_CC) -shared -Wl,--whole-archive $(SERVICE_LIB) -Wl,--no-whole-archive \
		-Wl,-soname,libiop89_service.so.$(basename $(VERSION)) -o $@

$(BUILD)/%.sums: always
	@mkdir -p $(BUILD)
	@tools/closure sums $* >$@.$$$$ && if cmp -s $@.$$$$ $@; then rm -f $@.$$$$; else mv $@.$$$$ $@; fi

# The tool with its page, headers, archives, shared objects, and a file for pkg-config for each archive.
INSTALLED = $(HEADERS) $(ARCHIVES) $(SHARED) $(SHARED_SERVICE) include/iop89.pc.in include/iop89_service.pc.in \
	$(BUILD)/iop89 $(BUILD)/iop89.1 $(BUILD)/iop89.bash

install: option-prefix proved-archives $(INSTALLED)
	@tools/install put $(INSTALLED)

# Takes away what install put there, and nothing else.
uninstall: option-prefix
	@tools/install remove $(INSTALLED)

# What was built; the proofs in crates/NAME/out/ stay, since they take minutes. A folder that nothing was built in is left alone.
clean:
	@[ "$(BUILD)" = build ] || [ ! -e "$(BUILD)" ] || [ -e "$(BUILD)/flags" ] || [ -e "$(BUILD)/prove.lock" ] || \
		{ echo "make: BUILD is \"$(BUILD)\": nothing was built there, and it stays" >&2; exit 2; }
	rm -rf $(BUILD)

# Other compilers or options compile anew: what they are is kept, and what is compiled depends on it.
$(BUILD)/flags: always
	@mkdir -p $(BUILD)
	@echo '$(CC) $(X86_CC) $(STRICT) $(CFLAGS) $(X86_LDFLAGS)' >$@.$$$$; \
		if cmp -s $@.$$$$ $@; then rm -f $@.$$$$; else mv $@.$$$$ $@; fi

PROGRAMS_OF_C = causes example borders empty stack compare scripts selftest emulator.o bench compare_service compare_sweep \
	compare_pauses compare_schedule compare_pair compare_touches compare_bus disk iop89 both_channels compare-hex bench-hex compare-list bench-list asmtest \
	compare-asm bench-asm bench-sweep
$(PROGRAMS_OF_C:%=$(BUILD)/%): $(BUILD)/flags

# What compiles for the machine at hand and for x86-64; INSTALL=1 installs it where it is missing.
compiler:
	@tools/need $(firstword $(CC)) gcc
x86-compiler:
	@$(X86_NEEDS)

host: x86-compiler $(BUILD)/example $(BUILD)/compare

$(BUILD)/example: $(addprefix host/examples/,example.c changes.c changes.h) include/iop89.h $(IOP89_LIB) | x86-compiler
	$(X86_CC) $(STRICT) $(CFLAGS) $(INCLUDES) $(LINKED) $(X86_LDFLAGS) -o $@

$(BUILD)/borders: host/compare/borders.c include/iop89.h $(IOP89_LIB) | x86-compiler
	$(X86_CC) $(PLAIN) $(subst c11,c99,$(STRICT)) $(CFLAGS) $(INCLUDES) $(LINKED) $(X86_LDFLAGS) -o $@

$(BUILD)/empty: host/compare/empty.c $(HEADERS) $(SERVICE_LIB) | x86-compiler
	$(X86_CC) $(PLAIN) $(subst c11,c99,$(STRICT)) $(CFLAGS) $(INCLUDES) $(LINKED) $(X86_LDFLAGS) -o $@

# Names are bound before main: a first call that is bound on its way takes 3 KiB of stack for the loader.
$(BUILD)/stack: host/bench/stack.c host/bench/sweep_case.h $(HEADERS) $(ARCHIVES) | x86-compiler
	$(X86_CC) $(PLAIN) $(STRICT) -D_POSIX_C_SOURCE=200809L $(CFLAGS) $(INCLUDES) $(LINKED) $(X86_LDFLAGS) \
		-Wl,-z,now -pthread -o $@

# How much stack each call needs, over the files of examples/, every instruction and every transfer.
stack: $(BUILD)/stack
	@tools/x86 $(BUILD)/stack examples/*.* examples/prom/*.*

# A host without the C library: all objects of both archives are linked, so that a name which one of them leaves undefined
# ends the link. The run's object stands in both, so one archive is taken in whole and the other for what it has besides.
alone: x86-compiler host/compare/alone.c $(ARCHIVES)
	$(X86_CC) $(STRICT) $(CFLAGS) -ffreestanding -nostdlib -static $(INCLUDES) host/compare/alone.c \
		-Wl,--whole-archive $(SERVICE_LIB) -Wl,--no-whole-archive $(IOP89_LIB) -o $(BUILD)/alone
	@tools/x86 $(BUILD)/alone || { echo "make: the host without the C library ended with $$?" >&2; exit 1; }

$(BUILD)/compare: host/compare/compare.c $(COMMON) $(COMMON_H) $(IOP89_LIB) | x86-compiler
	$(X86_CC) $(PLAIN) $(STRICT) $(CFLAGS) $(INCLUDES) $(LINKED) $(X86_LDFLAGS) -o $@

# The emulator's own checks, and its side of what the programs print, need no library: they run on the machine at hand.
$(BUILD)/scripts: $(SCRIPTS) $(SCRIPTS_H) $(COMMON) $(COMMON_H) | compiler
	@mkdir -p $(BUILD)
	$(CC) $(STRICT) $(CFLAGS) $(INCLUDES) $(LINKED) -o $@

$(BUILD)/selftest: host/emulator/selftest.c host/emulator/emulator.c host/emulator/emulator.h | compiler
	@mkdir -p $(BUILD)
	$(CC) $(STRICT) $(CFLAGS) $(LINKED) -o $@

compare: option-cases x86-compiler $(BUILD)/compare
	tools/x86 $(BUILD)/compare "$$SEED" "$$CASES"

compare-scripts: option-calls compiler program-script $(BUILD)/scripts
	tools/compare-scripts "$$SEED" "$$CALLS" $(TREE)/crates/script/out/script

compare-traces: option-images compiler program-trace $(BUILD)/scripts
	tools/compare-traces "$$SEED" "$$IMAGES" $(TREE)/crates/trace/out/trace

selftest: $(BUILD)/selftest
	$(BUILD)/selftest

# Runs every row of the table in examples/README.md, and the scripts that have a trace.
check-examples: x86-compiler $(BUILD)/example $(BUILD)/scripts
	tools/check-examples

# Holds the papers to the tree: names, files, commands, numbers.
check-papers:
	@tools/need python3 python3
	tools/check-papers

# Goes through README's commands and through misuse of them.
front-door:
	tools/check-front-door

# Makes the images again; what is committed must be what it makes.
examples:
	@tools/need python3 python3
	python3 examples/make.py examples

# Counts instructions, which are the same on a busy machine, and prints the tables of docs/BENCHMARKS.md but for those of
# PROM files and listings (bench-hex, bench-list).
bench: count-needs x86-compiler $(BUILD)/bench
	@X86_SIZE="$(X86_SIZE)" tools/bench $(BUILD)/bench $(IOP89_LIB) $(BUILD)/emulator.o

# What counts, installed where it is missing.
count-needs:
	@$(COUNT_NEEDS)

# What is counted is always compiled at -O2.
$(BUILD)/emulator.o: host/emulator/emulator.c host/emulator/emulator.h | x86-compiler
	@mkdir -p $(BUILD)
	$(X86_CC) $(STRICT) -O2 -c host/emulator/emulator.c -o $@

$(BUILD)/bench: host/bench/bench.c host/bench/sweep_case.h host/emulator/emulator.h $(HEADERS) $(BUILD)/emulator.o $(ARCHIVES)
	$(X86_CC) $(PLAIN) $(STRICT) -O2 $(INCLUDES) $(LINKED) $(X86_LDFLAGS) -o $@

# ---- The service archive: the machine call by call, and what stands on both archives

.PHONY: service-lib compare-service option-service stack alone

# The proved calls as a second archive; both link into one program.
service-lib: $(SERVICE_LIB)

# Thin crates that hold exported functions alone: what they rest on is not proved again for an archive. All else in an
# archive is local, so they join into one. The calls of service and schedule_calls are passed on by processor_calls, so that
# their code stands in it once; the sweep has an object of its own, which costs some bytes and saves instructions.
SERVICE_CRATES = processor_calls_c sweep_call run_call_c text_calls_c touch_calls

$(SERVICE_LIB): $(SERVICE_CRATES:%=$(BUILD)/%.sums)
	@tools/prove archives $(SERVICE_CRATES)
	@AR="$(X86_AR)" tools/join-archives $@ $(foreach crate,$(SERVICE_CRATES),$(call static,$(crate)))

# What the header says of a refusal beside what the archive answers and what the emulator's reader of states finds.
$(BUILD)/causes: host/compare/causes.c $(addprefix host/emulator/,state_bytes.c state_bytes.h emulator.c emulator.h) $(HEADERS) \
		$(SERVICE_LIB) | x86-compiler
	$(X86_CC) $(STRICT) $(CFLAGS) $(INCLUDES) $(LINKED) $(X86_LDFLAGS) -o $@

# What every comparison of texts shares: counts, and buffers between fences.
TEXT_COMMON = $(addprefix host/compare/,counts.c lent.c)
TEXT_COMMON_H = $(COMMON_H)

# Random states in bytes, on which calls, sweeps and schedules are compared.
STATES = host/compare/states.c
STATES_H = host/compare/states.h

COMPARE_SERVICE = host/compare/compare_service.c $(STATES)
COMPARE_SERVICE_H = $(STATES_H)

$(BUILD)/compare_service: $(COMPARE_SERVICE) $(COMPARE_SERVICE_H) $(COMMON) $(COMMON_H) $(SERVICE_LIB) | x86-compiler
	$(X86_CC) $(PLAIN) $(STRICT) $(CFLAGS) $(INCLUDES) $(LINKED) $(X86_LDFLAGS) -o $@

option-service:
	@tools/option number SEED && tools/option number SERVICE_CASES

compare-service: option-service $(BUILD)/compare_service
	tools/x86 $(BUILD)/compare_service "$$SEED" "$$SERVICE_CASES"

# Sweeps three ways: the archive's call, the emulator's own, and plain steps of the archive.
.PHONY: compare-sweep option-sweeps

option-sweeps:
	@tools/option number SEED && tools/option number SWEEPS

COMPARE_SWEEP = $(addprefix host/compare/,compare_sweep.c sweeps.c) $(STATES)
COMPARE_SWEEP_H = host/compare/sweeps.h $(STATES_H)

$(BUILD)/compare_sweep: $(COMPARE_SWEEP) $(COMPARE_SWEEP_H) $(COMMON) $(COMMON_H) $(SERVICE_LIB) | x86-compiler
	$(X86_CC) $(PLAIN) $(STRICT) $(CFLAGS) $(INCLUDES) $(LINKED) $(X86_LDFLAGS) -o $@

compare-sweep: option-sweeps $(BUILD)/compare_sweep
	tools/x86 $(BUILD)/compare_sweep "$$SEED" "$$SWEEPS"

# Block transfers with their channel suspended and resumed in the middle: archive and emulator, with pauses and without.
.PHONY: compare-pauses option-pauses

option-pauses:
	@tools/option number SEED && tools/option number PAUSES

COMPARE_PAUSES = $(addprefix host/compare/,compare_pauses.c pauses.c twin.c sweeps.c) $(STATES)
COMPARE_PAUSES_H = $(addprefix host/compare/,pauses.h twin.h sweeps.h) $(STATES_H)

$(BUILD)/compare_pauses: $(COMPARE_PAUSES) $(COMPARE_PAUSES_H) $(COMMON) $(COMMON_H) $(SERVICE_LIB) | x86-compiler
	$(X86_CC) $(PLAIN) $(STRICT) $(CFLAGS) $(INCLUDES) $(LINKED) $(X86_LDFLAGS) -o $@

compare-pauses: option-pauses $(BUILD)/compare_pauses
	tools/x86 $(BUILD)/compare_pauses "$$SEED" "$$PAUSES"

# Schedules, whole and cut in two: the archive's call, the emulator's own, and single calls of the archive.
.PHONY: compare-schedule option-schedules

option-schedules:
	@tools/option number SEED && tools/option number SCHEDULES

COMPARE_SCHEDULE = $(addprefix host/compare/,compare_schedule.c schedules.c)

$(BUILD)/compare_schedule: $(COMPARE_SCHEDULE) host/compare/schedules.h $(STATES) $(STATES_H) $(COMMON) $(COMMON_H) \
		$(SERVICE_LIB) | x86-compiler
	$(X86_CC) $(PLAIN) $(STRICT) $(CFLAGS) $(INCLUDES) $(LINKED) $(X86_LDFLAGS) -o $@

compare-schedule: option-schedules $(BUILD)/compare_schedule
	tools/x86 $(BUILD)/compare_schedule "$$SEED" "$$SCHEDULES"

# Calls on two processors: the archive's, the emulator's, single calls, and the same beside noise in the other's place.
.PHONY: compare-pair option-pairs

option-pairs:
	@tools/option number SEED && tools/option number PAIRS

COMPARE_PAIR = $(addprefix host/compare/,compare_pair.c processors.c schedules.c) $(STATES)
COMPARE_PAIR_H = $(addprefix host/compare/,processors.h schedules.h) $(STATES_H)

$(BUILD)/compare_pair: $(COMPARE_PAIR) $(COMPARE_PAIR_H) $(COMMON) $(COMMON_H) $(SERVICE_LIB) | x86-compiler
	$(X86_CC) $(PLAIN) $(STRICT) $(CFLAGS) $(INCLUDES) $(LINKED) $(X86_LDFLAGS) -o $@

compare-pair: option-pairs $(BUILD)/compare_pair
	tools/x86 $(BUILD)/compare_pair "$$SEED" "$$PAIRS"

# What a call touches: what the archive tells before it is made, and what the emulator notes while it works.
.PHONY: compare-touches option-touches

option-touches:
	@tools/option number SEED && tools/option number TOUCHES

$(BUILD)/compare_touches: host/compare/compare_touches.c $(STATES) $(STATES_H) $(COMMON) $(COMMON_H) $(SERVICE_LIB) | x86-compiler
	$(X86_CC) $(PLAIN) $(STRICT) $(CFLAGS) -DEMULATOR_NOTES $(INCLUDES) $(LINKED) $(X86_LDFLAGS) -o $@

# Steps over the card bus beside steps on memory that has the cards' bytes.
$(BUILD)/compare_bus: host/compare/compare_bus.c host/examples/card_bus.c host/examples/card_bus.h $(STATES) $(STATES_H) \
		$(COMMON) $(COMMON_H) $(SERVICE_LIB) | x86-compiler
	$(X86_CC) $(PLAIN) $(STRICT) $(CFLAGS) $(INCLUDES) $(LINKED) $(X86_LDFLAGS) -o $@

compare-touches: option-touches $(BUILD)/compare_touches $(BUILD)/compare_bus
	tools/x86 $(BUILD)/compare_touches "$$SEED" "$$TOUCHES"
	tools/x86 $(BUILD)/compare_bus "$$SEED"

# ---- The bench tool, over both archives

TOOL = $(wildcard host/tool/*.c) $(addprefix host/examples/,changes.c card_bus.c)
# The assembler in C tells which label a refused line means, and the emulator has the names of fields and of a state's bytes;
# the answers are the archives'.
TOOL_ASKS = $(addprefix host/emulator/,assembly.c emulator.c state_bytes.c)
TOOL_H = $(wildcard host/tool/*.h) $(addprefix host/examples/,changes.h card_bus.h) $(TOOL_ASKS:.c=.h) $(HEADERS)

# readline, where the x86-64 compiler finds it.
X86_READLINE ?= $(shell echo 'int main(void) { return 0; }' | \
	$(X86_CC) -x c - -include stdio.h -include readline/readline.h $(X86_LDFLAGS) -lreadline -o /dev/null 2>/dev/null && echo yes)

.PHONY: tool check-tool

tool: proved-archives $(BUILD)/iop89

$(BUILD)/iop89: $(TOOL) $(TOOL_ASKS) $(TOOL_H) $(ARCHIVES) | x86-compiler
	$(X86_CC) $(STRICT) $(CFLAGS) -D_POSIX_C_SOURCE=200809L $(if $(X86_READLINE),-DTOOL_READLINE) $(INCLUDES) \
		$(LINKED) $(X86_LDFLAGS) $(if $(X86_READLINE),-lreadline) -o $@

# The page for man and the shell's completion, from the text of its help.
$(BUILD)/iop89.1: $(BUILD)/iop89
	@tools/x86 $(BUILD)/iop89 help man-page >$@
$(BUILD)/iop89.bash: $(BUILD)/iop89
	@tools/x86 $(BUILD)/iop89 help bash-completion >$@

# Every command, every exit status, and misuse.
check-tool: $(BUILD)/iop89
	@tools/need python3 python3
	tools/check-tool

# A host that drives both channels, saves the machine and restores it.
.PHONY: demo-service

$(BUILD)/both_channels: host/examples/both_channels.c $(HEADERS) $(SERVICE_LIB) | x86-compiler
	$(X86_CC) $(STRICT) $(CFLAGS) $(INCLUDES) $(LINKED) $(X86_LDFLAGS) -o $@

demo-service: $(BUILD)/both_channels
	tools/x86 $(BUILD)/both_channels

# A disk controller as a card of the bus, and channel programs that read and write its sectors.
.PHONY: demo-disk

$(BUILD)/disk: host/examples/disk.c host/examples/card_bus.c host/examples/card_bus.h $(HEADERS) $(SERVICE_LIB) | x86-compiler
	$(X86_CC) $(STRICT) $(CFLAGS) $(INCLUDES) $(LINKED) $(X86_LDFLAGS) -o $@

demo-disk: $(BUILD)/disk
	tools/x86 $(BUILD)/disk

# ---- The worked example: a sweep next to a marker table, drawn from what the tool shows

.PHONY: sweep check-sweep

sweep: $(BUILD)/iop89
	@tools/need python3 python3
	tools/draw-sweep docs/sweep.svg docs/SWEEP.md

# What is committed must be what is drawn.
check-sweep: $(BUILD)/iop89
	@tools/need python3 python3
	@cp docs/SWEEP.md $(BUILD)/SWEEP.md
	tools/draw-sweep $(BUILD)/sweep.svg $(BUILD)/SWEEP.md
	cmp $(BUILD)/sweep.svg docs/sweep.svg && cmp $(BUILD)/SWEEP.md docs/SWEEP.md

# ---- PROM files: the proved reader beside one that shares nothing with it

HEX = host/emulator/hex.c $(addprefix host/compare/,hex_texts.c random.c)
HEX_H = host/emulator/hex.h $(addprefix host/compare/,hex_texts.h random.h) $(HEADERS)

.PHONY: compare-hex bench-hex option-texts

option-texts:
	@tools/option number SEED && tools/option number TEXTS

$(BUILD)/compare-hex: host/compare/compare_hex.c $(HEX) $(HEX_H) $(TEXT_COMMON) $(TEXT_COMMON_H) $(SERVICE_LIB) | x86-compiler
	$(X86_CC) $(PLAIN) $(STRICT) $(CFLAGS) $(INCLUDES) $(LINKED) $(X86_LDFLAGS) -o $@

# What is counted is always compiled at -O2.
$(BUILD)/bench-hex: host/bench/bench_hex.c $(HEX) $(HEX_H) $(SERVICE_LIB) | x86-compiler
	$(X86_CC) $(PLAIN) $(STRICT) -O2 $(INCLUDES) $(LINKED) $(X86_LDFLAGS) -o $@

# Compares both readers on the files of examples/prom and on random texts.
compare-hex: option-texts $(BUILD)/compare-hex
	tools/x86 $(BUILD)/compare-hex "$$SEED" "$$TEXTS"

# Counts the instructions of both for each byte of text.
bench-hex: count-needs $(BUILD)/bench-hex
	@tools/bench-hex $(BUILD)/bench-hex

# ---- Listings: the proved lister beside one that shares nothing with it

LISTING = host/emulator/listing.c host/compare/random.c
LISTING_H = host/emulator/listing.h host/compare/random.h $(HEADERS)

.PHONY: compare-list bench-list option-parts

option-parts:
	@tools/option number SEED && tools/option number PARTS

$(BUILD)/compare-list: host/compare/compare_list.c $(LISTING) $(LISTING_H) $(TEXT_COMMON) $(TEXT_COMMON_H) $(SERVICE_LIB) | x86-compiler
	$(X86_CC) $(PLAIN) $(STRICT) $(CFLAGS) $(INCLUDES) $(LINKED) $(X86_LDFLAGS) -o $@

# What is counted is always compiled at -O2.
$(BUILD)/bench-list: host/bench/bench_list.c $(LISTING) $(LISTING_H) $(SERVICE_LIB) | x86-compiler
	$(X86_CC) $(PLAIN) $(STRICT) -O2 $(INCLUDES) $(LINKED) $(X86_LDFLAGS) -o $@

# Lists every first pair with rests of every length, random code and the rows of the notation by both listers.
compare-list: option-parts $(BUILD)/compare-list
	tools/x86 $(BUILD)/compare-list "$$SEED" "$$PARTS" host/emulator/notation.txt

# Counts the instructions of both listers for each byte that they list.
bench-list: count-needs $(BUILD)/bench-list
	@tools/bench-list $(BUILD)/bench-list

# ---- Assembling: the proved assembler beside one in C that was written from the papers alone

ASSEMBLY = $(addprefix host/emulator/,assembly.c listing.c) host/compare/random.c
ASSEMBLY_H = $(addprefix host/emulator/,assembly.h listing.h) host/compare/random.h
COMPARE_ASM = $(addprefix host/compare/,compare_asm.c asm_texts.c) $(TEXT_COMMON) $(ASSEMBLY)
COMPARE_ASM_H = host/compare/asm_texts.h $(TEXT_COMMON_H) $(ASSEMBLY_H)

.PHONY: asmtest compare-asm bench-asm option-asm-texts

$(BUILD)/asmtest: host/emulator/asmtest.c $(ASSEMBLY) $(ASSEMBLY_H) | compiler
	@mkdir -p $(BUILD)
	$(CC) $(STRICT) $(CFLAGS) $(INCLUDES) $(LINKED) -o $@

# Its own checks: the rows of host/emulator/notation.txt both ways, the maker's sample, every number and its borders.
asmtest: $(BUILD)/asmtest
	$(BUILD)/asmtest host/emulator/notation.txt examples/f59.asm

option-asm-texts:
	@tools/option number SEED && tools/option number ASM_TEXTS

$(BUILD)/compare-asm: $(COMPARE_ASM) $(COMPARE_ASM_H) $(SERVICE_LIB) | x86-compiler
	$(X86_CC) $(PLAIN) $(STRICT) $(CFLAGS) $(INCLUDES) $(LINKED) $(X86_LDFLAGS) -o $@

# What is counted is always compiled at -O2.
$(BUILD)/bench-asm: host/bench/bench_asm.c $(ASSEMBLY) $(ASSEMBLY_H) $(HEADERS) $(SERVICE_LIB) | x86-compiler
	$(X86_CC) $(PLAIN) $(STRICT) -O2 $(INCLUDES) $(LINKED) $(X86_LDFLAGS) -o $@

# Assembles random texts, texts by hand and the listing of every first pair by both assemblers.
compare-asm: option-asm-texts $(BUILD)/compare-asm
	tools/x86 $(BUILD)/compare-asm "$$SEED" "$$ASM_TEXTS" host/emulator/notation.txt examples/f59.asm

# Counts the instructions of both assemblers for each character of text.
bench-asm: count-needs $(BUILD)/bench-asm
	@tools/bench-asm $(BUILD)/bench-asm

# ---- A sweep's time beside memcpy's

.PHONY: bench-sweep x86-machine

# Times say nothing where an emulator runs the library, so it is said before anything is proved.
x86-machine:
	@[ "$$(uname -m)" = x86_64 ] || \
		{ echo "bench-sweep: times say nothing here: this is no x86-64, and an emulator runs the library" >&2; exit 2; }

# What is timed is always compiled at -O2.
$(BUILD)/bench-sweep: host/bench/bench_sweep.c host/bench/sweep_case.h $(HEADERS) $(SERVICE_LIB) | x86-compiler
	$(X86_CC) $(PLAIN) $(STRICT) -D_POSIX_C_SOURCE=200809L -O2 $(INCLUDES) $(LINKED) $(X86_LDFLAGS) -o $@

# Times a sweep of 65,535 and of 65,536 bytes against memcpy, in nine alternating rounds.
bench-sweep: x86-machine $(BUILD)/bench-sweep
	@$(BUILD)/bench-sweep

# ---- Definitions: those that no law reaches, and wrong ones that the laws must refuse

.PHONY: unlawed mutants option-mutants

# Definitions that no law reaches, but for those that tools/unlawed.txt excuses; sources alone are read.
unlawed:
	@tools/need python3 python3
	@tools/unlawed

option-mutants:
	@tools/option number SEED && tools/option number N && tools/option number FROM

# Makes N wrong definitions by small changes, from the FROM-th of the seed on, and prints what refuses each; those that
# survive are printed too, but for those of tools/mutants.txt. Polite: one process, of the lowest priority.
mutants: option-mutants
	@tools/need rt
	@tools/need python3 python3
	@tools/mutants "$$SEED" "$$N" "$$FROM"
