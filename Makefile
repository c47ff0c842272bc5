.PHONY: test quick wrong lists times replay kit player player-library player-test valgrind bench compare compare-states compare-timer compare-vectors original tools

# The folder with `cart.rom` and `cart.trace` that `make replay` runs on.
DIR ?= crates/replay/data

# The processor that what links the library is made for: x86_64 or aarch64, this machine's own where none is named.
export TARGET
PROCESSOR := $(or $(TARGET),$(shell uname -m))

# The folder of libplayer.a. Where PLAYER_LIB names one, that library is taken as it stands.
LIBRARY := $(if $(PLAYER_LIB),$(abspath $(PLAYER_LIB)),$(CURDIR)/target/library/$(PROCESSOR))
PLAYER := $(CURDIR)/target/player/$(PROCESSOR)
CARGO = player/cargo "$(LIBRARY)" "$(PLAYER)"

# All tests, a plain `rt ci` first. The last line is 'N passed, M failed'.
test: kit
	@TARGET= tools/test

# The contributor's loop: what changed, and no verdict.
quick: kit
	@TARGET= tools/quick

# The wrong programs of CRATE, or of all crates.
wrong: kit
	@tools/wrong --folder must-fail --folder wrong $(CRATE)

# What is made from refusals.txt and VERSION, in the C header, the Rust crate and the documents.
lists:
	@tools/lists write

# docs/TIMES.md, from what the last `make test` took.
times:
	@tools/times

# The replay program, proved and built where that is not yet done, on a folder's cartridge and trace.
replay: kit
	@echo "Proving and building the replay program: minutes the first time, then at once." >&2
	@tools/run-program replay "$(DIR)"

# The library that players link, proved and built, and what links it: the Rust crate with its example and its pages, and the C test.
player: tools player-library
	@$(CARGO) build --quiet --offline --release --examples
	@$(CARGO) doc --quiet --offline --no-deps
	@mkdir -p "$(PLAYER)/c"
	@tools/target cc -std=c11 -O2 -Wall -Wextra -Werror -Iinclude player/c/test.c "$(LIBRARY)/libplayer.a" -o "$(PLAYER)/c/test-c"
	@echo "$(LIBRARY)/libplayer.a, include/imfelkuz.h, player/rust; the example is $(PLAYER)/cargo/$$(tools/target triple)/release/examples/play"

player-library:
ifeq ($(PLAYER_LIB),)
player-library: kit
	@echo "Proving and building libplayer.a: minutes the first time, then half of one." >&2
	@said=$$(tools/library target/library 2>&1) || { echo "$$said" >&2; exit 1; }
endif

# The header in C and C++, README's examples, the crate's tests, and its example on the bundled trace.
player-test: tools player-library
	@player/test "$(LIBRARY)" "$(PLAYER)"

# The C test, and the tests of lengths and of drawn states, under valgrind: a minute. It runs on no emulator.
valgrind: tools player-library
	@tools/target native || { echo "valgrind does not run on an emulator: leave TARGET out."; exit 1; }
	@command -v valgrind >/dev/null 2>&1 || { echo "valgrind is missing: package valgrind."; exit 1; }
	@mkdir -p "$(PLAYER)/c"
	@tools/target cc -std=c11 -O1 -g -Iinclude player/c/test.c "$(LIBRARY)/libplayer.a" -o "$(PLAYER)/c/test-valgrind"
	@valgrind --quiet --error-exitcode=1 --leak-check=full "$(PLAYER)/c/test-valgrind"
	@export "$$(tools/target runner)=valgrind --quiet --error-exitcode=1"; $(CARGO) test --quiet --offline --test lengths --test random

# Times and instruction counts; with ORIGINAL=folder of mizu-core 1.3.0's source beside it too. player/bench says what is measured.
bench: tools player-library
	@ORIGINAL="$(ORIGINAL)" player/bench/run "$(LIBRARY)" "$(PLAYER)/bench"

# The library against mizu-core 1.3.0, from ORIGINAL=folder of its source: images and accesses, and every state of the clock's registers.
# SEED, IMAGES and ACCESSES may be given, and WORDS for another run; compare/README.md says which there are.
SEED ?= 20261115
IMAGES ?= 100000
ACCESSES ?= 2000
COMPARED := $(CURDIR)/target/compare/$(PROCESSOR)
COMPARE = @compare/run "$(ORIGINAL)" "$(LIBRARY)" "$(COMPARED)"
compare: original tools player-library
	$(COMPARE) $(or $(WORDS),--seed $(SEED) --images $(IMAGES) --accesses $(ACCESSES) --out "$(COMPARED)")

compare-states: original tools player-library
	$(COMPARE) states

# Boards with a timer, whatever their clock does. SEED, BOARDS and ACCESSES, for each board, may be given; CHECKED=yes has the original stop
# where a number overflows.
BOARDS ?= 12000
compare-timer: original tools player-library
	$(COMPARE) timer --seed $(SEED) --boards $(BOARDS) --accesses $(ACCESSES) --out "$(COMPARED)"

# The sample that `make test` replays, made anew.
compare-vectors: original tools player-library
	$(COMPARE) vectors --seed $(SEED) --to "$(CURDIR)/compare/vectors/sample.txt"

original:
	@[ "$(ORIGINAL)" ] || { \
	  echo "ORIGINAL is not given: 'make compare ORIGINAL=folder' takes the folder of mizu-core 1.3.0's source, with src/cartridge.rs in it."; \
	  exit 1; }

tools:
	@tools/target check

kit:
	@tools/kit >&2
