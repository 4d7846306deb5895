# The picture unit for C programs.
#
#   make              the archives target/staticlib/libppu.a and libtext.a, which is the text of a screen, and the player target/bin/player,
#                     proved and built if they are missing or older than crates/: that takes minutes and needs rt, the Rattle toolchain
#   make install      puts include/ppu.h, lib/libppu.a, lib/libppu-text.a, lib/pkgconfig/ppu.pc and ppu-text.pc and bin/ppu-player under PREFIX,
#                     and the tools, if there are any; a program that uses both archives links by pkg-config --libs ppu ppu-text
#   make uninstall    takes those files away again
#   make examples     target/examples/minimal, split, two and text and, where SDL2 is, target/examples/viewer
#   make test         tests/run
#   make clean        removes what was compiled from C; archive, player and proofs stay
#
#   PREFIX=/usr/local  where to install; no root is needed for a folder of one's own
#   DESTDIR=           a folder that is put before PREFIX, for packages
#   ARCHIVE=, TEXT_ARCHIVE=, PLAYER=  archives and a player to take as they are

PREFIX = /usr/local
ARCHIVE = target/staticlib/libppu.a
TEXT_ARCHIVE = target/staticlib/libtext.a
PLAYER = target/bin/player
VERSION := $(shell sed -n 's/^\#define PPU_VERSION "\(.*\)"/\1/p' include/ppu.h)
CFLAGS = -O2

# what rt leaves in crates/NAME/out is no source, and it makes the folder NAME newer
crates := $(shell find crates crates.txt -path 'crates/*/out' -prune -o -type d -path 'crates/*' ! -path 'crates/*/*' -o -print)
prefix := $(abspath $(PREFIX))
to = $(DESTDIR)$(prefix)
tools = $(if $(wildcard tools/build),$(addprefix target/tools/,ppu-picture ppu-log ppu-text ppu-search) tools/ppu-batch)
installed = $(to)/include/ppu.h $(to)/lib/libppu.a $(to)/lib/libppu-text.a $(to)/lib/pkgconfig/ppu.pc $(to)/lib/pkgconfig/ppu-text.pc \
    $(to)/bin/ppu-player $(addprefix $(to)/bin/,$(notdir $(tools)))
sdl = $(shell pkg-config --exists sdl2 2>/dev/null && echo sdl2)

$(foreach name,PREFIX DESTDIR ARCHIVE TEXT_ARCHIVE PLAYER,$(if $(word 2,$($(name))),$(error $(name)=$($(name)): make cannot handle a space in it)))

.PHONY: all tools install uninstall examples test clean help
.NOTPARALLEL:

all: $(ARCHIVE) $(TEXT_ARCHIVE) $(PLAYER)

target/staticlib/lib%.a: $(crates)
	tools/archives $*

target/bin/player: $(crates)
	tools/archives player

tools: $(ARCHIVE) $(TEXT_ARCHIVE)
	$(if $(tools),ARCHIVE=$(abspath $(ARCHIVE)) TEXT_ARCHIVE=$(abspath $(TEXT_ARCHIVE)) tools/build)

# $(call pc_file,NAME,DESCRIPTION): what pkg-config reads
pc_file = printf '%s\n' 'prefix=$(prefix)' 'includedir=$${prefix}/include' 'libdir=$${prefix}/lib' '' 'Name: $1' 'Description: $2, proved' \
    'Version: $(VERSION)' 'Cflags: -I$${includedir}' 'Libs: -L$${libdir} -l$1' >$(to)/lib/pkgconfig/$1.pc

install: all tools
	install -d $(to)/include $(to)/lib/pkgconfig $(to)/bin
	install -m 644 include/ppu.h $(to)/include/ppu.h
	install -m 644 $(ARCHIVE) $(to)/lib/libppu.a
	install -m 644 $(TEXT_ARCHIVE) $(to)/lib/libppu-text.a
	install -m 755 $(PLAYER) $(to)/bin/ppu-player
	$(if $(tools),install -m 755 $(tools) $(to)/bin)
	$(call pc_file,ppu,The picture unit 2C02 of the NES)
	$(call pc_file,ppu-text,The text of a screen of the picture unit 2C02)

uninstall:
	rm -f $(installed)

examples: $(addprefix target/examples/,minimal split two text) $(sdl:sdl2=target/examples/viewer)
	@$(if $(sdl),,echo "make: no viewer: SDL2 is not installed (Debian: libsdl2-dev)")

target/examples/%: examples/%.c $(wildcard examples/*.h) include/ppu.h $(ARCHIVE)
	@mkdir -p target/examples
	$(CC) -std=c99 $(CFLAGS) -Iinclude -o $@ $< $(ARCHIVE) $(if $(filter %text,$@),$(TEXT_ARCHIVE)) \
	    $(if $(filter %viewer,$@),$(shell pkg-config --cflags --libs sdl2))

target/examples/text: $(TEXT_ARCHIVE)

test:
	tests/run

clean:
	rm -rf target/examples target/tools

help:
	@sed -n '/^#/!q; s/^# \{0,1\}//p' Makefile
