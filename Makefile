# Builds the proved programs from dist/ with a C compiler, in seconds. Nothing is proved here: ./zygos build proves them, with rt.
#
#   make                          the programs, in out/bin
#   make check                    the tests of the tools, and the worked examples on these programs; its last line counts
#   make install PREFIX=/usr      the programs, the tools and the pages of the manual; DESTDIR= goes before all paths
#   make clean
CC ?= cc
CFLAGS ?= -O2
PREFIX ?= /usr/local
OUT ?= out/bin

PROGRAMS := $(patsubst dist/%.built,%,$(wildcard dist/*.built))
TOOLS := capture compare inline judge lie load packets part picture play record show top warm
PAGES := README.md LICENSE NOTICE docs examples

BIN := $(DESTDIR)$(PREFIX)/bin
LIB := $(DESTDIR)$(PREFIX)/lib/zygos
MAN := $(DESTDIR)$(PREFIX)/share/man/man1
DOC := $(DESTDIR)$(PREFIX)/share/doc/zygos

# the tests of the tools need Python alone; they leave out what needs a memcached or tcpdump, where there is none
TESTS := test_tools test_odd test_show test_top test_picture test_compare test_shared test_judging test_orders test_record \
	test_play test_packets test_trying

all: $(PROGRAMS:%=$(OUT)/%)
	@[ -n '$(PROGRAMS)' ] || { echo 'dist/ has no programs; tools/release makes them' >&2; exit 1; }

# dist/ must be of this source
$(OUT)/%: dist/%.s dist/%.built dist/rt.c
	@tools/build $* --shipped
	@mkdir -p $(OUT)
	CC='$(CC)' CFLAGS='$(CFLAGS)' LDFLAGS='$(LDFLAGS)' tools/repo/assemble $* $@

check: all
	tests/gate 'tools/test --program $(OUT)/zygos $(TESTS)' 'tests/dist --at $(OUT) $(PROGRAMS)'

install: all
	install -d '$(BIN)' '$(LIB)/bin' '$(LIB)/tools/repo' '$(MAN)' '$(DOC)'
	install -m 755 zygos '$(LIB)'
	install -m 644 VERSION '$(LIB)'
	install -m 755 $(PROGRAMS:%=$(OUT)/%) '$(LIB)/bin'
	install -m 644 $(PROGRAMS:%=dist/%.built) '$(LIB)/bin'
	install -m 755 $(TOOLS:%=tools/%) '$(LIB)/tools'
	install -m 644 tools/repo/advising.py tools/repo/zygos_tools.py tools/repo/sources.sh '$(LIB)/tools/repo'
	cd tools && find zygos_tools '(' -name '*.py' -o -name '*.sh' ')' -exec install -D -m 644 {} '$(abspath $(LIB))/tools/{}' \;
	ln -sf ../lib/zygos/zygos '$(BIN)/zygos'
	for one in $(TOOLS); do ln -sf ../lib/zygos/tools/$$one '$(BIN)'/zygos-$$one || exit; done
	export PYTHONDONTWRITEBYTECODE=1; for one in zygos $(TOOLS:%=zygos-%); do tools/repo/manual '$(BIN)'/$$one >'$(MAN)'/$$one.1 || exit; done
	cp -R --no-preserve=ownership $(PAGES) '$(DOC)'

clean:
	rm -rf $(OUT)

.PHONY: all check install clean
