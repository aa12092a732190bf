# Builds the proved library and the C host around it, and runs their tests.
#
#   make test        everything: proofs, must-fail edits, library, lint, host tests; ends with 'N passed, 0 failed'
#   make demo        the main job, on data of the repository
#   make lib         the proved library as a C archive
#   make host        the host's programs
#   make install     library, header, pkg-config file, bay and its manual page under PREFIX
#   make quick       the host's tests alone, with the library that is there
#   make checked     the host's programs with the address and undefined-behaviour sanitizers, in build/checked
#   make fuzz        the library against the C model on random traffic, until stopped; FUZZ_SEED says where to begin
#   make fuzz-host   what reads files and sockets, on spoiled ones, for FUZZ_SECONDS seconds
#   make bench       how fast the library is, beside the C model
#   make flashrom    flashrom writes and verifies the whole of both parts, some minutes long
#   make lint        every check that no compiler makes, over all files
#   make clean

POD_LIB      := target/staticlib/libpod.a
BUILD        ?= build
PREFIX       ?= /usr/local
FUZZ_SEED    ?= 1000000
FUZZ_SECONDS ?= 600

# The archive is for x86-64. On a machine of another kind a program is cross-compiled, and build/NAME is a script that
# runs it under an emulator.
MACHINE ?= $(shell uname -m)
ifeq ($(MACHINE),x86_64)
CC := gcc
AR := ar
else
CC := tools/cross-cc
AR := x86_64-linux-gnu-ar
endif

CFLAGS   := -std=c11 -O2 -Wall -Wextra -Wconversion -Werror
CPPFLAGS := -D_XOPEN_SOURCE=700 -Ihost

ifdef CHECKED
# The same programs, watched while they run: the first access outside an object or undefined act ends them.
CFLAGS  += -O1 -g -Wno-conversion -fno-omit-frame-pointer -fsanitize=address,undefined -fno-sanitize-recover=all
else
# What stands between a fault of bay and whoever would use it.
HARDEN      := -U_FORTIFY_SOURCE -D_FORTIFY_SOURCE=2 -fstack-protector-strong -fstack-clash-protection -fPIE
HARDEN_LINK := -Wl,-z,relro,-z,now,-z,noexecstack
ifeq ($(MACHINE),x86_64)
HARDEN      += -fcf-protection
HARDEN_LINK += -pie
endif
endif

.PHONY: test quick lib setup host install demo checked fuzz fuzz-host bench flashrom lint flags clean
.DELETE_ON_ERROR:

test:
	@tools/test

quick:
	@tools/test --quick

setup:
	@tools/setup build

# ---- The library.

lib: $(POD_LIB)

ifdef QUICK
$(POD_LIB):
	@echo "expected a library at $@, found none: make lib builds it" >&2; exit 1
else
# The room pod exports every call. rt leaves its archive among what it keeps of the room, and takes it away with the next
# rt ci, so programs link a copy. OF_CI: right behind rt ci, over what that has proved.
$(POD_LIB): crates.txt $(shell find $(wildcard crates/*/src crates/*/specs crates/*/proofs) -name '*.rt' -o -name '*.antt') | setup
	@tools/rooms lib $@ $(if $(OF_CI),--of-ci)
endif

# ---- The host's programs: what is under host/, folder by folder.

comma := ,
objects = $(patsubst host/%.c,$(BUILD)/obj/%.o,$(wildcard $(addprefix host/,$(1))))

# What several programs share; a linker takes from it what a program names.
KIT      := $(BUILD)/kit.a
TESTS    := $(patsubst host/test/%.c,%,$(wildcard host/test/*_test.c))
PROGRAMS := $(addprefix $(BUILD)/,$(TESTS) case diff speed bay bay_faulty lay poke fuzz)

host: $(PROGRAMS) $(BUILD)/traces

$(KIT): $(filter-out %_test.o,$(call objects,bus/*.c test/*.c model.c))
	@rm -f $@ && $(AR) rcs $@ $^

$(PROGRAMS): $(KIT) $(POD_LIB)
	@echo "LD $@" && $(CC) $(CFLAGS) $(LINK) -o $@ $(filter %.o,$^) $(KIT) $(POD_LIB)

$(addprefix $(BUILD)/,$(TESTS)): $(BUILD)/%: $(BUILD)/obj/test/%.o
$(BUILD)/case: $(call objects,case/*.c)
$(BUILD)/diff: $(call objects,diff/*.c)
$(BUILD)/speed: $(call objects,speed/*.c)
$(BUILD)/bay: $(call objects,bay/*.c)
$(BUILD)/bay_faulty: $(call objects,bay/*.c bay/test/faulty.c)
$(BUILD)/lay: $(call objects,bay/test/lay.c)     # makes streams from scripts
$(BUILD)/poke: $(call objects,bay/test/poke.c)   # a client for the tests of the server
$(BUILD)/fuzz: $(call objects,fuzz/*.c) $(filter-out %/main.o,$(call objects,bay/*.c))

$(BUILD)/bay: LINK := $(HARDEN_LINK)
FAULTY := open write fsync fchmod fchown link rename unlink flock lstat poll accept sigaction malloc
$(BUILD)/bay_faulty: LINK := $(addprefix -Wl$(comma)--wrap=,$(FAULTY))
$(call objects,bay/*.c bus/*.c): CFLAGS += $(HARDEN)

$(BUILD)/obj/%.o: host/%.c | setup
	@mkdir -p $(@D) && echo "CC $<" && $(CC) $(CFLAGS) $(CPPFLAGS) -MMD -MP -c -o $@ $<

-include $(shell find $(BUILD)/obj -name '*.d' 2>/dev/null)

# Traces of the differential test. So few clocks are not held to reach all that its traces are for.
$(BUILD)/traces: $(BUILD)/diff
	@$< --clocks 900000 --record $@ >$@.log || { cat $@.log; exit 1; }

checked:
	@$(MAKE) --no-print-directory BUILD=build/checked CHECKED=1 host

# ---- In place for others: PREFIX is where it is to be found, DESTDIR what stands before that while a package is made.

VERSION = $(shell sed -n 's/^.define POD_VERSION_M[AI][JN]OR //p' host/pod.h | paste -sd.)
TO      = $(DESTDIR)$(PREFIX)

install: $(POD_LIB) $(BUILD)/bay
	@install -d "$(TO)/bin" "$(TO)/include" "$(TO)/lib/pkgconfig" "$(TO)/share/man/man1"
	@install -m 644 $(POD_LIB) "$(TO)/lib"
	@install -m 644 host/pod.h "$(TO)/include"
	@sed "s|@PREFIX@|$$(realpath -m -- "$(PREFIX)")|; s|@VERSION@|$(VERSION)|" host/pod.pc.in >"$(TO)/lib/pkgconfig/pod.pc"
	@for file in $(BUILD)/bay $(BUILD)/bay.x86-64; do [ ! -e $$file ] || install $$file "$(TO)/bin"; done
	@install -m 644 host/bay/bay.1 "$(TO)/share/man/man1"
	@echo "installed pod $(VERSION) in $(TO)"

# ---- Jobs.

demo: build/bay
	@$< demo

fuzz: build/diff
	@$< --seed $(FUZZ_SEED) --forever

fuzz-host: checked
	@build/checked/fuzz --seconds $(FUZZ_SECONDS) host/fuzz/seeds

bench: build/speed build/traces
	@$< --machine '$(MACHINE)' --flags '$(CFLAGS)' build/traces
	@printf '\n## How the time of rt ci divides among the crates\n\n'
	@if [ -f build/log/rooms ]; then tools/shares build/log/rooms; else \
	    echo 'No log of rt ci is here: make test writes one, build/log/rooms.'; fi

flashrom: build/bay build/lay build/poke
	@host/bay/test/flashrom.sh all

lint:
	@tools/setup lint tidy
	@tools/lint

flags:
	@echo -std=c11 $(CPPFLAGS)

clean:
	rm -rf build target crates/*/out
