# GNU make builds, installs and tests by these targets; `make help` lists them.
#
# The SHA-256 of asm/PROVED.txt, which tools/generate writes here.
PROVED = b172f9c5fc3d4166749f553ac6ac24b88735413b46b5244136b15c4bf247f627
PREFIX ?= /usr/local
LIBDIR ?= $(PREFIX)/lib
INCLUDEDIR ?= $(PREFIX)/include
MANDIR ?= $(PREFIX)/share/man
CFLAGS ?= -O2
# What make builds is in BUILD. rt proves the sources first. If rt is missing, or UNIX_PATH_FROM is
# asm, make builds the proved code of asm/TARGET instead.
BUILD = build
TARGET := $(shell uname -m)-$(shell uname -s | tr A-Z a-z)
FROM := $(or $(UNIX_PATH_FROM),$(if $(shell command -v rt 2> /dev/null),rt,asm))
ifeq ($(filter $(FROM),rt asm),)
$(error UNIX_PATH_FROM is asm or rt, and not $(FROM))
endif

# The programs, each of which has a manual page, and the libraries.
PROGRAMS := $(patsubst man/%.1,$(BUILD)/%,$(wildcard man/*.1))
VERSION := $(shell sed -n 's/^.define UNIX_PATH_VERSION "\(.*\)"/\1.0/p' include/unix_path.h)
SONAME := libunix_path.so.$(firstword $(subst ., ,$(VERSION)))
ARCHIVE := $(BUILD)/libunix_path.a
SHARED := $(BUILD)/libunix_path.so.$(VERSION)
LIBRARIES := $(ARCHIVE) $(SHARED)
# Programs and libraries are linked with these flags, and then with LDFLAGS and, only programs, with
# PROGRAM_LDFLAGS. In the shared library, each call's symbol has the version that added the call.
HARDENED = -Wl,-z,relro -Wl,-z,now
CALLS = crates/unix_path_c/calls.map
SHARE = -shared -Wl,-soname,$(SONAME) -Wl,--version-script=$(CALLS) -Wl,-z,defs

# Returns a value as one word of the shell.
quoted = '$(subst ','\'',$1)'
# Returns the settings of these variables, for the environment of a command.
settings = $(foreach it,$1,$(it)=$(call quoted,$($(it))))
# Prints a sentence, and fails.
stop = { echo $(call quoted,$1) >&2; exit 1; }
# The tests find what was built by these variables.
UNIX_PATH_PROGRAM = $(abspath $(BUILD)/pathtool)
UNIX_PATH_UPATH = $(abspath $(BUILD)/upath)
UNIX_PATH_LIB = $(abspath $(ARCHIVE))
OVER = $(call settings,UNIX_PATH_PROGRAM UNIX_PATH_UPATH UNIX_PATH_LIB)
INSTALL = $(call settings,PREFIX LIBDIR INCLUDEDIR MANDIR DESTDIR BUILD) tools/install

.DELETE_ON_ERROR:
.PHONY: help run upath check test programs lib test-bindings install install_program \
	install_library uninstall bench count differential io-faults dist digests checked always

help:
	@echo 'These targets need GNU make.'
	@echo
	@echo 'make run           runs pathtool on standard input. Proves and builds it first'
	@echo 'make upath         builds upath and prints its path. Proves it first'
	@echo 'make check         proves every crate, in about 20 minutes; later only what changed'
	@echo 'make test          the full test suite: every proof, test, mutant and vector, from scratch;'
	@echo '                   64 to 84 minutes, by the machine'
	@echo 'make bench         times the calls of asm/ and pathtool, compared with Rust. Proves and'
	@echo '                   builds pathtool first; needs cargo. For example'
	@echo '                   make bench only=components,equal reps=15'
	@echo 'make count         counts the instructions of the jobs, of pathtool and of the calls from'
	@echo '                   C in half a minute, and compares them with bench/counts.txt.'
	@echo '                   Proves and builds first; needs valgrind and cc'
	@echo 'make differential  asks pathtool and Rust the same random lines, a million in a'
	@echo '                   quarter of a minute. Proves and builds first; needs rustc. Prints its'
	@echo '                   seed; for example  make differential lines=1000000 seed=20'
	@echo 'make io-faults     runs the programs with failing inputs and outputs, little memory and'
	@echo '                   large inputs. Proves and builds them first'
	@echo 'make lib           builds the libraries for C, an archive and a shared library, and'
	@echo '                   prints the path. Proves them first'
	@echo 'make test-bindings tests the calls from C, C++ and Rust, and the examples, two of them with'
	@echo '                   SQLite and etcd. Proves and builds the libraries first; needs'
	@echo '                   cc. What lacks another command is left out, and named'
	@echo 'make install       installs pathtool and upath with their manual pages and completions,'
	@echo '                   the libraries with their headers and files for pkg-config and CMake,'
	@echo '                   and the licences. Proves and builds first what was not proved from'
	@echo '                   these sources. install_program and install_library install one of the'
	@echo '                   two, and make uninstall removes both. If an installation fails, it may'
	@echo '                   be repeated'
	@echo 'make dist          writes packages of the code in asm/ to dist/, in seconds. Needs'
	@echo '                   Python 3.8 and gcc. tools/dist says more'
	@echo
	@echo 'The directories are PREFIX (/usr/local), LIBDIR (PREFIX/lib), INCLUDEDIR (PREFIX/include)'
	@echo 'and MANDIR (PREFIX/share/man), all below DESTDIR, which no file contains. CC, AR, CPPFLAGS,'
	@echo 'CFLAGS and LDFLAGS have their usual meaning. Code that rt builds is only linked with them,'
	@echo 'into the shared library.'
	@echo
	@echo 'A first proof of pathtool takes 379 seconds or more on four cores, and one of the library a'
	@echo 'little less. After a change only its crate and the crates above it are proved again.'
	@echo
	@echo 'Without rt, or if UNIX_PATH_FROM is asm, nothing is proved: run, upath, lib, install,'
	@echo 'io-faults, differential and test-bindings build the proved code of asm/ with cc, in a'
	@echo 'second, and test leaves out what needs rt. Everything else needs rt, the command of the'
	@echo 'Rattle toolchain, in one of these versions:'
	@sed 's/^/  /' rattle-toolchain

run: $(BUILD)/pathtool
	@$<

upath: $(BUILD)/upath
	@echo $<

programs: $(PROGRAMS)

lib: $(LIBRARIES)
	@echo $<

check:
	@tools/prove

test:
	@UNIX_PATH_FROM=$(FROM) tools/test

bench: $(BUILD)/pathtool
	@cd bench/calls && cargo build --release --offline --quiet && \
		$(OVER) cargo run --release --offline --quiet -- \
		$(foreach it,only reps,$(if $($(it)),$(call quoted,$(it)=$($(it)))))

count: programs $(LIBRARIES)
	@tools/prove --build path_jobs >&2
	@$(OVER) tools/count

differential: $(BUILD)/pathtool
	@$(OVER) LINES=$(call quoted,$(lines)) SEED=$(call quoted,$(seed)) tests/test_differential.py

io-faults: programs
	@$(OVER) tests/test_faults.py

test-bindings: $(LIBRARIES)
	@$(OVER) tests/test_bindings.py

install: programs $(LIBRARIES)
	@$(INSTALL) program library

install_program: programs
	@$(INSTALL) program

install_library: $(LIBRARIES)
	@$(INSTALL) library

uninstall:
	@$(INSTALL) --remove

dist:
	@tools/dist

# Refuses damaged files of asm/ and include/.
AGAIN = is missing or damaged: get it again, or run tools/generate (--headers for a header)
digests:
	@[ "$$(sha256sum < asm/PROVED.txt)" = '$(PROVED)  -' ] || $(call stop,asm/PROVED.txt $(AGAIN))
	@found=$$(sed -n '/^[0-9a-f]\{64\}  /p' asm/PROVED.txt | sha256sum -c 2> /dev/null) || \
		{ echo "$$found" | sed -n 's|: FAILED.*| $(AGAIN)|p' >&2; exit 1; }

# Says what is built from asm/, or why it can't be.
TARGETS = $(patsubst asm/%/pathtool.s,%,$(wildcard asm/*/pathtool.s))
checked: digests
	@[ -f asm/$(TARGET)/pathtool.s ] || \
		$(call stop,asm/ has code for $(TARGETS) and this is $(TARGET): build with rt here)
	@command -v $(firstword $(CC)) > /dev/null || \
		$(call stop,$(CC) is not on the path: install gcc or clang or name a compiler by CC)
	@command -v $(AR) > /dev/null || $(call stop,$(AR) is not on the path: install binutils)
	@echo 'building unix_path $(VERSION) from asm/: this code was proved when asm/ was generated,' \
		'and nothing is proved here' >&2
	@[ "$$(tools/asm_sources)" = "$$(sed -n 's/^sources //p' asm/PROVED.txt)" ] || \
		echo 'the sources in crates/ are not those that asm/ was generated from' >&2

# What is in BUILD depends on this text, which has the digests of asm/ and of the sources. The times
# of other files don't matter.
MADE_FROM = $(FROM) $(TARGET) $(if $(filter rt,$(FROM)),$(shell rt version),$(PROVED)) \
	$(CC) $(AR) $(CPPFLAGS) $(CFLAGS) $(LDFLAGS) $(PROGRAM_LDFLAGS)
$(BUILD)/made-from: always $(if $(filter asm,$(FROM)),checked)
	@mkdir -p $(BUILD)
	@sources=$$(tools/asm_sources) && echo "$$sources" $(call quoted,$(MADE_FROM)) > $@.$$$$ && \
		{ cmp -s $@.$$$$ $@ || cp $@.$$$$ $@; } && rm $@.$$$$

ifeq ($(FROM),asm)
$(BUILD)/unix_path.o: $(BUILD)/made-from
	@$(CC) $(CFLAGS) -c asm/$(TARGET)/unix_path.s -o $@ || \
		$(call stop,$(CC) can't assemble asm/: it needs GNU as 2.35 or later or clang)

$(PROGRAMS): $(BUILD)/%: $(BUILD)/made-from
	@$(CC) $(CPPFLAGS) $(CFLAGS) $(HARDENED) $(LDFLAGS) $(PROGRAM_LDFLAGS) asm/$(TARGET)/$*.s \
		asm/support.c -o $@ || $(call stop,$(CC) can't build $*: it needs the C library's headers)
else
# rt proves what has changed since the last proof. Its archive becomes one object, which exports
# only the calls.
PARTS = $(BUILD)/parts
$(BUILD)/unix_path.o: $(BUILD)/made-from
	@tools/prove --build unix_path_c >&2
	@rm -rf $(PARTS) && mkdir $(PARTS)
	@ar x --output $(PARTS) crates/unix_path_c/out/libunix_path_c.a
	@ld -r -o $(PARTS)/whole $(PARTS)/*.o
	@objcopy --wildcard --keep-global-symbol 'unix_path_*' $(PARTS)/whole $@
	@rm -r $(PARTS)

$(PROGRAMS): $(BUILD)/%: $(BUILD)/made-from
	@tools/prove --build $* >&2
	@rm -f $@ && cp crates/$*/out/$* $@
endif

$(ARCHIVE): $(BUILD)/unix_path.o
	@rm -f $@
	@$(AR) rc $@ $<

$(SHARED): $(BUILD)/unix_path.o $(CALLS)
	@$(CC) $(CFLAGS) $(HARDENED) $(LDFLAGS) $(SHARE) $< -o $@
	@ln -sf $(notdir $@) $(BUILD)/$(SONAME)
	@ln -sf $(SONAME) $(BUILD)/libunix_path.so
