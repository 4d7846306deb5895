#!/usr/bin/env bash
# What a C programmer meets first: `make install` into a folder, the examples compiled against it by pkg-config, the installed player, and
# the viewer's window on an X server without a screen (Xvfb), looked at pixel by pixel and driven by keys.
# tests/examples.sh --store stores the pictures of tests/viewer anew instead of comparing with them: look at them afterwards.
# It takes the archives that PPU_ARCHIVE and PPU_TEXT_ARCHIVE name, else target/staticlib/libppu.a and libtext.a, and the player target/bin/player.
set -euo pipefail
cd "$(dirname "$0")/.."
root=$PWD
stored=$root/tests/viewer
job=same
[ "${1:-}" != --store ] || job=store
out=$(mktemp -d)
prefix=$out/prefix
server=
viewer=
skipped=

# The process with this id, which this script started.
end_of() {
    [ -z "$1" ] || { kill "$1" && wait "$1"; } 2>/dev/null || true
}

clean_up() {
    end_of "$viewer"
    end_of "$server"
    rm -rf "$out"
}
trap clean_up EXIT

fail() {
    echo "tests/examples.sh: $*" >&2
    exit 1
}

say() { echo "tests/examples.sh: $*"; }

skip() {
    skipped=yes
    say "skipped: $*"
}

look() { python3 "$stored/window.py" "$@"; }

has() { command -v "$1" >/dev/null; }

# The Makefile: what is installed where, and that nothing of it stays.
make_as_user() { make --no-print-directory -s "$@" ARCHIVE="$archive" TEXT_ARCHIVE="$text_archive" PLAYER="$player"; }

test_install() {
    make_as_user install PREFIX="$prefix"
    local name names=(include/ppu.h lib/libppu.a lib/libppu-text.a lib/pkgconfig/ppu.pc lib/pkgconfig/ppu-text.pc bin/ppu-player)
    [ ! -e tools/build ] || names+=(bin/ppu-picture bin/ppu-text bin/ppu-search bin/ppu-log bin/ppu-batch)
    [ "$(cd "$prefix" && find . -type f | sort)" = "$(printf './%s\n' "${names[@]}" | sort)" ] || fail "make install has put $(find "$prefix" -type f)"
    cmp include/ppu.h "$prefix/include/ppu.h"
    cmp "$archive" "$prefix/lib/libppu.a"
    cmp "$text_archive" "$prefix/lib/libppu-text.a"
    "$prefix/bin/ppu-player" <examples/paper.log >"$out/printed"
    "$player" <examples/paper.log | cmp - "$out/printed" || fail "the installed player"
    [ -s "$out/printed" ] || fail "the installed player has printed nothing"
    make_as_user install PREFIX=/usr DESTDIR="$out/package"
    for name in ppu ppu-text; do
        grep -qx 'prefix=/usr' "$out/package/usr/lib/pkgconfig/$name.pc" || fail "$name.pc under DESTDIR does not say PREFIX"
    done
    make_as_user uninstall PREFIX=/usr DESTDIR="$out/package"
    [ -z "$(find "$out/package" -type f)" ] || fail "make uninstall leaves $(find "$out/package" -type f)"
    if make_as_user install PREFIX="$out/a b" 2>"$out/errors"; then fail "make install into a folder with a space in its name"; fi
    say "make install, uninstall and DESTDIR; the installed player plays examples/paper.log in $(wc -l <"$out/printed") lines"
}

# Compiles an example as a newcomer would, but with every warning: compile NAME COMPILER EXAMPLE PACKAGES [OPTION..]
compile() {
    local name=$1 compiler=$2 example=$3 packages=$4
    # the flags and the packages are words
    # shellcheck disable=SC2046,SC2086
    "$compiler" -std=c99 -pedantic -Wall -Wextra -Werror -O2 "${@:5}" "examples/$example.c" $(pkg-config --cflags --libs $packages) -o "$out/$example-$name" ||
        fail "$compiler on examples/$example.c"
}

test_packages() {
    local name flags
    for name in ppu ppu-text; do
        flags=$(pkg-config --cflags --libs "$name" | xargs)
        [ "$flags" = "-I$prefix/include -L$prefix/lib -l$name" ] || fail "pkg-config $name: $flags"
        [ "$(pkg-config --modversion "$name")" = "$(sed -n 's/^#define PPU_VERSION "\(.*\)"$/\1/p' include/ppu.h)" ] || fail "pkg-config --modversion $name"
    done
}

test_minimal() {
    [ "$(wc -l <examples/minimal.c)" -lt 70 ] || fail "examples/minimal.c is no longer short"
    local compiler
    look minimal >"$out/wanted"
    for compiler in "${compilers[@]}"; do
        compile "$compiler" "$compiler" minimal ppu
        "${under[@]}" "$out/minimal-$compiler" >"$out/printed" || fail "minimal by $compiler"
        cmp "$out/printed" "$out/wanted" || fail "minimal by $compiler prints something else than the reckoning of tests/viewer/window.py"
    done
    say "examples/minimal.c by ${compilers[*]} prints the $(wc -l <"$out/wanted") rows that are reckoned${under[0]:+, under valgrind}"
}

# altered EXAMPLE SED: $out/altered is this example with this change
altered() {
    sed "$2" "examples/$1.c" >"$out/altered.c"
    ! cmp -s "examples/$1.c" "$out/altered.c" || fail "examples/$1.c has no place for $2"
    # shellcheck disable=SC2046 # the flags are words
    "${compilers[0]}" -std=c99 -O1 -iquote examples "$out/altered.c" $(pkg-config --cflags --libs ppu) -o "$out/altered" || fail "examples/$1.c with $2"
}

# split_seen WHERE SED: with this change the picture is another one there, and the reckoning says so
split_seen() {
    altered split "$2"
    "$out/altered" >"$out/split.ppm" || fail "examples/split.c with $2: no picture"
    if look split "$out/split.ppm" 100 2>"$out/errors"; then fail "the reckoning does not see $2"; fi
    grep -q ": $1: " "$out/errors" || fail "examples/split.c with $2, not seen in $1: $(cat "$out/errors")"
}

# split_ends TEXT SED: with this change it ends with status 1 and this line
split_ends() {
    local status=0
    altered split "$2"
    "$out/altered" >"$out/split.ppm" 2>"$out/errors" || status=$?
    if [ "$status" != 1 ] || [ "$(<"$out/errors")" != "split: $1" ]; then fail "examples/split.c with $2: status $status, $(cat "$out/errors")"; fi
}

# The split screen against a reckoning, for scrolls into both nametables; the reckoning itself, on pictures that are wrong by a column, by a row, or
# in the one line that writes of port 5 alone get wrong; and how it ends where a call is refused or nothing hits.
test_split() {
    [ "$(wc -l <examples/split.c)" -lt 80 ] || fail "examples/split.c is no longer short"
    local compiler scroll scrolls=(0 1 7 8 100 255 256 257 300 504 511)
    for compiler in "${compilers[@]}"; do
        compile "$compiler" "$compiler" split ppu
        for scroll in "${scrolls[@]}"; do
            "$out/split-$compiler" "$scroll" >"$out/split.ppm" || fail "split $scroll by $compiler"
            look split "$out/split.ppm" "$scroll"
        done
        "${under[@]}" "$out/split-$compiler" >"$out/split.ppm" || fail "split by $compiler"
        look split "$out/split.ppm" 100
    done
    split_seen "the line below the bar" 's/set_scroll(scroll,/set_scroll(scroll + 1,/'
    split_seen "the line below the bar" 's/set_scroll(scroll, y + 1)/set_scroll(scroll, y)/'
    split_seen "the line below the bar" 's/set_scroll(scroll, y + 1);/write_port(0x2005, scroll); write_port(0x2005, 0);/'
    split_seen "the playfield" 's/set_scroll(scroll, y + 1)/set_scroll(scroll, y + 2)/'
    split_seen "the bar" 's/set_scroll(0, 0)/set_scroll(1, 0)/'
    split_ends "no sprite 0 hit up to line 239" 's/0x2001, 0x1E/0x2001, 0x0A/'
    split_ends "a run was refused with 5" 's/run(1, PPU_UNTIL_HIT)/run(1, 3)/'
    split_ends "a write was refused with 1" 's/0x2001, 0x1E/0x4001, 0x1E/'
    split_ends "no unit of board 7" 's/PPU_VERTICAL/7/g'
    if "$out/split-${compilers[0]}" >/dev/full; then fail "split on a full device ends with 0"; fi
    say "examples/split.c by ${compilers[*]} draws what is reckoned for the scrolls ${scrolls[*]}, and ends with 1 where a call fails or nothing hits"
}

pictures() { python3 tests/pictures.py "$@"; }

# two_draws NAME JOB CHR LEFT RIGHT [BOARD BOARD]: what the example draws of these logs is right by this job of tests/pictures.py, whose words behind
# the picture are in `words`; that of the next compiler is the same.
two_draws() {
    local drawn=$out/$1-$compiler.ppm right=$out/$1-${compilers[0]}.ppm
    "$out/two-$compiler" "${@:3}" >"$drawn" || fail "two ${*:3} by $compiler"
    if [ "$drawn" = "$right" ]; then pictures "$2" "$drawn" "${words[@]}"; else cmp "$drawn" "$right"; fi || fail "two ${*:3} by $compiler"
}

# two_worked_out NAME LEFT RIGHT [CHR]: both halves are as worked out
two_worked_out() {
    local words=("${4:-examples/picture.chr}" "$2" "$3")
    two_draws "$1" two "${words[@]}"
}

# two_captured LEFT RIGHT: these captures, played so on their one cartridge, end with the emulator's pictures
two_captured() {
    local words=("$1" "$2")
    cmp "tests/captures/$1.chr" "tests/captures/$2.chr" || fail "$1 and $2 have not one cartridge"
    two_draws "$1-$2" two-captured "tests/captures/$1.chr" "$out/captured/$1.log" "$out/captured/$2.log" \
        $(($(cat "$out/captured/$1.board") & 7)) $(($(cat "$out/captured/$2.board") & 7))
}

# two_seen SED: with this change the picture is another one
two_seen() {
    altered two "$1"
    "$out/altered" examples/picture.chr examples/picture.log "$out/later.log" >"$out/two.ppm" || fail "examples/two.c with $1: no picture"
    ! cmp -s "$out/two.ppm" "$out/later-${compilers[0]}.ppm" || fail "$1 in examples/two.c is not seen"
}

# two_refuses TEXT PROGRAM WORD..: it ends with status 1 and this line, and prints no picture
two_refuses() {
    local status=0
    "${@:2}" >"$out/printed" 2>"$out/errors" || status=$?
    if [ "$status" != 1 ] || [ -s "$out/printed" ] || [ "$(<"$out/errors")" != "two: $1" ]; then fail "${*:2}: status $status, $(cat "$out/errors")"; fi
    refused=$((refused + 1))
}

# The logs that two.c cannot play: cut short, unknown, refused, without a whole picture; and what its own mistakes would give.
two_refuses_logs() {
    for length in 1 2 3; do
        { cat "$log" && head -c "$length" "$log"; } >"$bad"
        two_refuses "$bad: record $(($(stat -c %s "$log") / 4 + 1)) is cut short" "$two" "$chr" "$log" "$bad"
    done
    for name in '\x03\x20\x02\x00 is no log record' '\x00\x20\x02\x01 is no log record' '\x02\x00\x01\x01 is no log record' '\x01\x40\x00\x00 was refused with 1' '\x00\x1f\xff\x00 was refused with 1'; do
        printf '\x02\x01\x06\x00%b' "${name%% *}" >"$bad"
        two_refuses "$bad: record 2 ${name#* }" "$two" "$chr" "$bad" "$log"
        two_refuses "$bad: record 2 ${name#* }" "$two" "$chr" "$log" "$bad"
    done
    printf '\x02\x01\x06\x00\x01\x20\x01\x1e\x02\x00\x09\x00\x01\x20\x07\x00' >"$bad" # port 7 on line 9, drawing
    two_refuses "$bad: record 4 was refused with 4" "$two" "$chr" "$log" "$bad"
    : >"$bad"
    two_refuses "$bad: it draws no whole picture" "$two" "$chr" "$log" "$bad"
    printf '\x02\x00\xef\x00' >"$bad" # lines 0 to 238
    two_refuses "$bad: it draws no whole picture" "$two" "$chr" "$bad" "$log"
    altered two 's/ppu_shared_run(which,/ppu_shared_run(2,/'
    two_refuses "$log: record 1 was refused with 7" "$out/altered" "$chr" "$log" "$log"
    altered two 's/PPU_RUN_ALL, MEMORY/3, MEMORY/'
    two_refuses "$log: record 1 was refused with 5" "$out/altered" "$chr" "$log" "$log"
    altered two 's/, LENT(colours)/, colours, 256/'
    two_refuses "$log: record 1 was refused with 2" "$out/altered" "$chr" "$log" "$log"
}

# What two.c cannot play: no log and no cartridge, logs that are cut or refused, boards that are none or have writable pattern memory.
test_two_refusals() {
    local refused=0 two=$out/two-${compilers[0]} chr=examples/picture.chr log=examples/picture.log bad=$out/bad name board length
    local usage="usage: two CARTRIDGE.chr LEFT.log RIGHT.log [LEFT_BOARD RIGHT_BOARD]"
    two_refuses "$usage" "$two"
    two_refuses "$usage" "$two" "$chr" "$log"
    two_refuses "$usage" "$two" "$chr" "$log" "$log" 1
    two_refuses "$usage" "$two" "$chr" "$log" "$log" 1 1 1
    for name in "$out/none: No such file or directory" "$out: Is a directory"; do
        two_refuses "$name" "$two" "${name%%: *}" "$log" "$log"
        two_refuses "$name" "$two" "$chr" "${name%%: *}" "$log"
        two_refuses "$name" "$two" "$chr" "$log" "${name%%: *}"
    done
    for length in 0 4096 8191 8193 16384; do
        head -c "$length" /dev/zero >"$bad"
        two_refuses "$bad: a cartridge is 8192 bytes, the left pattern table and the right one" "$two" "$bad" "$log" "$log"
    done
    for board in 8 9 10 11 12; do
        two_refuses "$log: board $board has writable pattern memory, which two units cannot share" "$two" "$chr" "$log" examples/second.log "$board" 1
        two_refuses "examples/second.log: board $board has writable pattern memory, which two units cannot share" "$two" "$chr" "$log" examples/second.log 1 "$board"
    done
    for board in 5 6 7 13 15 16 255 256 265; do
        two_refuses "no board has the number $board" "$two" "$chr" "$log" "$log" 1 "$board"
        two_refuses "no board has the number $board" "$two" "$chr" "$log" "$log" "$board" 1
    done
    two_refuses_logs
    if "$two" "$chr" "$log" "$log" >/dev/full; then fail "two on a full device ends with 0"; fi
    say "examples/two.c ends with 1 and one line, without a picture, on $refused command lines: writable boards, other cartridges, cut and refused logs"
}

# Altered copies, in which a call is the other unit's or is lent its memory, draw something else.
two_altered() {
    local lent="PPU_RUN_ALL, LENT(left), LENT(right)"
    two_seen 's/ppu_shared_run(which,/ppu_shared_run(!which,/'
    two_seen 's/ppu_shared_write(which,/ppu_shared_write(!which,/'
    two_seen 's/ppu_shared_read(which,/ppu_shared_read(!which,/'
    two_seen "s/PPU_RUN_ALL, MEMORY/$lent, NAMETABLES(1), NAMETABLES(0), BOTH(oam), BOTH(palette)/"
    two_seen "s/PPU_RUN_ALL, MEMORY/$lent, NAMETABLES(0), NAMETABLES(1), LENT(oam[1]), LENT(oam[0]), BOTH(palette)/"
    two_seen "s/PPU_RUN_ALL, MEMORY/$lent, NAMETABLES(0), NAMETABLES(1), BOTH(oam), LENT(palette[1]), LENT(palette[0])/"
    two_seen 's/LENT(left), LENT(right)/LENT(right), LENT(left)/'
    two_seen 's/logs\[which\].drawn\[y\]/logs[!which].drawn[y]/'
    two_seen 's/logs\[row % 2\]/logs[0]/'
}

# Two logs on one cartridge: each half is what that log draws alone, as worked out, as ppu-picture draws it by the plain calls, and for captures of one
# cartridge as the emulator drew it. The logs out of step; exchanged; one log twice; another cartridge, by which the logs' own tiles are seen
# to be stored nowhere.
test_two() {
    [ "$(wc -l <examples/two.c)" -lt 120 ] || fail "examples/two.c is no longer short"
    local compiler name first=examples/picture.log second=examples/second.log both=$out/both-${compilers[0]}.ppm
    mkdir "$out/made" "$out/captured" "$out/raw-captured"
    cp examples/picture.py examples/records.py "$out/made"
    python3 "$out/made/picture.py"
    for name in picture.log second.log picture.chr picture.tbl; do
        cmp "$out/made/$name" "examples/$name" || fail "examples/$name is not what examples/picture.py writes"
    done
    pictures captures "$out/captured" "$out/raw-captured"
    { printf '\x01\x20\x02\x00' && cat "$second"; } >"$out/later.log" # a write of port 2 first: it does nothing, and all behind it comes a step later
    tr '\000-\377' '\377\000-\376' <examples/picture.chr >"$out/other.chr"
    for compiler in "${compilers[@]}"; do
        compile "$compiler" "$compiler" two ppu
        two_worked_out both "$first" "$second"
        two_worked_out exchanged "$second" "$first"
        two_worked_out later "$first" "$out/later.log"
        two_worked_out first "$first" "$first"
        two_worked_out second "$second" "$second"
        two_worked_out other "$first" "$second" "$out/other.chr"
        two_captured hit8 spr8
        two_captured scroll2_w4 scroll3_w1
        two_captured ovf scroll2_w4
        "${under[@]}" "$out/two-$compiler" examples/picture.chr "$first" "$second" | cmp - "$both" || fail "two by $compiler"
    done
    make_as_user target/examples/two
    target/examples/two examples/picture.chr "$first" "$second" | cmp - "$both" || fail "two by make examples"
    if [ -x "$prefix/bin/ppu-picture" ]; then
        for name in picture second; do
            "$prefix/bin/ppu-picture" --last -o "$out/$name.png" "examples/$name.log" || fail "ppu-picture on examples/$name.log"
        done
        pictures two-alone "$both" "$out/picture.png" "$out/second.png" || fail "the halves are not what ppu-picture draws of each log alone"
    fi
    two_altered
    say "examples/two.c by ${compilers[*]} draws two logs on one cartridge, each half what that log draws alone: the examples, exchanged, out of step, captures of an emulator"
    test_two_refusals
}

# The text layer beside the library, in examples/text.c, and alone.
test_text() {
    local compiler words
    words=$(sed -n 's/^TEXT = "\(.*\)"$/\1/p' examples/picture.py)
    [ -n "$words" ] || fail "examples/picture.py has no TEXT"
    cat >"$out/alone.c" <<'PROGRAM'
#include <ppu.h>
int main(void)
{
    static uint8_t page[PPU_NAMETABLE_PAGE_LENGTH], table[PPU_TABLE_LENGTH], rows[PPU_ROWS_LENGTH];
    page[33] = 7;
    table[7] = 'a';
    uint64_t answer = ppu_text(page, sizeof page, table, sizeof table, rows, sizeof rows);
    int there = ppu_number(answer) == PPU_DONE && ppu_count(answer) == PPU_ROWS_LENGTH - 1 && rows[32] == ' ' && rows[33] == 'a';
    return there && ppu_number(ppu_page(rows, sizeof rows, table, sizeof table, page, sizeof page)) == PPU_BAD_CHARACTER ? 0 : 1;
}
PROGRAM
    for compiler in "${compilers[@]}"; do
        compile "$compiler" "$compiler" text "ppu ppu-text"
        "${under[@]}" "$out/text-$compiler" <examples/picture.log >"$out/printed" || fail "text by $compiler"
        [ "$(sed 's/^ *//; s/ *$//; /^$/d' "$out/printed")" = "$words"$'\n'"0 tiles without a character" ] || fail "text by $compiler prints $(cat "$out/printed")"
        [ "$(grep -c '^.\{32\}$' "$out/printed")" -eq 30 ] || fail "text by $compiler prints no 30 rows of 32"
        # shellcheck disable=SC2046 # the flags are words
        "$compiler" -std=c99 -pedantic -Wall -Wextra -Werror "$out/alone.c" $(pkg-config --cflags --libs ppu-text) -o "$out/alone" ||
            fail "$compiler: the text layer without the library"
        "${under[@]}" "$out/alone" || fail "the text layer without the library, by $compiler"
    done
    make_as_user target/examples/text
    target/examples/text <examples/picture.log | cmp - "$out/printed" || fail "text by make examples"
    [ ! -e tools/build ] || "$prefix/bin/ppu-text" --table examples/picture.tbl --last examples/picture.log | diff - <(head -n 30 "$out/printed") ||
        fail "the installed ppu-text and examples/text.c differ"
    say "examples/text.c by ${compilers[*]} prints the words of examples/picture.py; ppu-text alone by pkg-config"
}

# refuses TEXT WORD..: the viewer with these words ends with status 2 and one line, which has the text in it
refuses() {
    local status=0
    timeout 20 "$out/viewer-${compilers[0]}" "${@:2}" >"$out/printed" 2>"$out/errors" || status=$?
    if [ "$status" != 2 ] || [ -s "$out/printed" ] || [ "$(wc -l <"$out/errors")" != 1 ] || [[ "$(<"$out/errors")" != "viewer: "*"$1"* ]]; then
        fail "viewer ${*:2}: status $status, $(cat "$out/errors")"
    fi
    refused=$((refused + 1))
}

test_bad_words() {
    local refused=0 log=examples/paper.log
    refuses "no log"
    refuses "$out/none: No such file" "$out/none"
    refuses "$out: Is a directory" "$out"
    refuses "$out/none: No such file" --palette "$out/none" "$log"
    local length scale board
    for length in 0 191 193 384 1535 1537; do
        head -c "$length" /dev/zero >"$out/wrong"
        refuses "$out/wrong: $length bytes; a palette has 192 or 1536" --palette "$out/wrong" "$log"
    done
    refuses "--palette: a file is wanted" "$log" --palette
    for scale in 0 17 -1 2x 99999999999999999999 ""; do
        refuses "--scale: a number from 1 to 16" --scale "$scale" "$log"
    done
    for board in 5 6 7 13 15 16 255; do
        refuses "--board: a board byte is wanted, 0 to 4 or 8 to 12" --board "$board" "$log"
    done
    for board in -1 256 x ""; do
        refuses "--board: a number from 0 to 255" --board "$board" "$log"
    done
    refuses "--board: a number from 0 to 255" "$log" --board
    refuses "--until-picture: a number" "$log" --until-picture
    refuses "--until-picture: a number" --until-picture 0 "$log"
    refuses "--fast: unknown" --fast "$log"
    refuses "again.log: unknown" "$log" again.log
    DISPLAY='' WAYLAND_DISPLAY='' XDG_RUNTIME_DIR=$out refuses "no window" "$log"
    DISPLAY='' SDL_VIDEODRIVER=x11 refuses "no window" "$log"
    DISPLAY=:93941 SDL_VIDEODRIVER=x11 refuses "no window" "$log"
    say "the viewer refuses $refused bad command lines with status 2 and one line"
}

start_server() {
    mkdir "$out/screen"
    Xvfb -noreset -displayfd 5 -screen 0 1100x600x24 -fbdir "$out/screen" 5>"$out/display" 2>"$out/server" &
    server=$!
    for _ in $(seq 100); do
        [ ! -s "$out/display" ] || break
        sleep 0.1
    done
    [ -s "$out/display" ] || fail "Xvfb does not start: $(tail -n 2 "$out/server")"
    DISPLAY=:$(cat "$out/display")
    export DISPLAY SDL_VIDEODRIVER=x11 SDL_FRAMEBUFFER_ACCELERATION=0
}

# start COMPILER WORD..: the viewer in the background, until its window is there
start() {
    (cd "$out" && exec "$out/viewer-$1" "${@:2}") 2>"$out/errors" &
    viewer=$!
    window=
    while kill -0 "$viewer" 2>/dev/null; do
        window=$(xdotool search --onlyvisible --name '\.log: ' 2>/dev/null) && break
        sleep 0.05
    done
    [ -n "$window" ] || fail "no window of viewer ${*:2}: $(cat "$out/errors")"
}

# Waits until the window's title is like this.
title() {
    local name=
    for _ in $(seq 200); do
        name=$(xdotool getwindowname "$window")
        # shellcheck disable=SC2053
        [[ "$name" != $1 ]] || return 0
        sleep 0.05
    done
    fail "the window's title is '$name', not '$1'"
}

keys() { xdotool key --delay 4 "$@"; }

# The window's place, as window.py takes it.
place() {
    local X Y WIDTH HEIGHT
    eval "$(xdotool getwindowgeometry --shell "$window" | grep -E '^(X|Y|WIDTH|HEIGHT)=[0-9]+$')"
    echo "$out/screen/Xvfb_screen0,$X,$Y,$WIDTH,$HEIGHT"
}

# A key that ends the viewer.
quit() {
    local status=0
    keys "$1"
    for _ in $(seq 200); do
        kill -0 "$viewer" 2>/dev/null || break
        sleep 0.05
    done
    ! kill -0 "$viewer" 2>/dev/null || fail "the key $1 does not end the viewer"
    wait "$viewer" || status=$?
    viewer=
    [ "$status" = 0 ] || fail "the viewer ends with $status: $(cat "$out/errors")"
    [ ! -s "$out/errors" ] || fail "the viewer says $(cat "$out/errors")"
}

# Every key, on examples/picture.log; the screen against the stored ones
test_keys() {
    start "${compilers[0]}" --until-picture 3 "$root/examples/picture.log"
    title "picture.log: picture 3, paused before line 240"
    look "$job" "$(place)" "$stored/paused.png"
    look picture "$(place)" examples/2c02.pal 240
    keys n
    title "picture.log: picture 4, paused before line 240"
    keys Right
    title "picture.log: picture 4, end of log"
    keys space n l
    title "picture.log: picture 4, end of log"
    keys r
    title "picture.log: picture 0, paused before line 0"
    keys n n n
    title "picture.log: picture 3, paused before line 240"
    keys --repeat 21 l
    title "picture.log: picture 3, paused before line 261"
    keys Down
    title "picture.log: picture 3, paused before line 0"
    keys --repeat 100 l
    title "picture.log: picture 3, paused before line 100"
    look "$job" "$(place)" "$stored/within.png"
    keys s n
    title "picture.log: picture 4, paused before line 240"
    look bmp "$out/screen-3-100.bmp" "$stored/within.png"
    quit q
    say "the viewer's keys n, Right, l, Down, r, s, q; its screen is tests/viewer/paused.png and, within a picture, within.png (${job})"
}

# panel_says TEXT: a line of the panel
panel_says() {
    look panel "$(place)" >"$out/panel"
    grep -qx "$1" "$out/panel" || fail "the panel has no '$1': $(cat "$out/panel")"
}

# The key h: to each sprite 0 hit of a log, the first alone of the lines where sprite 0 and background meet in a picture, and to the log's end
test_hits() {
    local hits hit
    mapfile -t hits < <(look hits)
    [ ${#hits[@]} -gt 1 ] || fail "no hits in hits.log"
    start "${compilers[0]}" --paused "$out/hits.log"
    title "hits.log: picture 0, paused before line 0"
    for hit in "${hits[@]}"; do
        keys h
        title "hits.log: picture ${hit% *}, paused before line $((${hit#* } + 1))"
        panel_says "HIT ON LINE ${hit#* }"
    done
    keys l
    title "hits.log: picture ${hit% *}, paused before line $((${hit#* } + 2))"
    look panel "$(place)" >"$out/panel"
    ! grep -q "HIT ON" "$out/panel" || fail "the panel still speaks of a hit a line later"
    keys h
    title "hits.log: picture *, end of log"
    panel_says "NO HIT BEFORE THE END"
    quit q
    say "the viewer's key h stops after each sprite 0 hit of a log, and at its end: ${#hits[@]} hits"
}

# The third picture of a log, in a file's colours, against the reckoning with this mask: third LOG PALETTE MASK
third() {
    start "${compilers[-1]}" --paused --scale 1 --palette "$2" "$out/$1"
    title "$1: picture 0, paused before line 0"
    keys n n n
    title "$1: picture 3, paused before line 240"
    look picture "$(place)" "$2" 240 "$3"
    quit q
}

# The picture against a reckoning, in the colours of a file, within a picture, and in a window of another size; in greys and with emphasis, which
# 64 colours and 512 show. It is the third: the log has run no line 261 between its last address and the second picture, which therefore begins
# at that address.
test_pictures() {
    start "${compilers[-1]}" --scale 1 --palette "$out/palette" --until-picture 3 "$root/examples/picture.log"
    title "picture.log: picture 3, paused before line 240"
    look picture "$(place)" "$out/palette" 240
    keys --repeat 122 l
    title "picture.log: picture 3, paused before line 100"
    look picture "$(place)" "$out/palette" 100
    xdotool windowmove "$window" 30 5 windowsize --sync "$window" 1030 590
    keys l
    title "picture.log: picture 3, paused before line 101"
    look picture "$(place)" "$out/palette" 101
    quit Escape
    third grey.log "$out/palette" 1F
    third emphasis.log "$out/palette" BE
    third emphasis.log "$out/all.pal" BE
    say "the viewer's picture is the reckoned one: in a file's colours, after 100 lines of it, at twice its size, in greys, with emphasis"
}

# to_picture LOG FROM TO: the viewer, paused after picture FROM of the log, goes on to picture TO
to_picture() {
    keys --repeat $(($3 - $2)) n
    title "$1: picture $3, paused before line 240"
}

# pages_shown BOARD PICTURE..: these pictures of examples/pages.log under a board are the reckoned ones, and the third is so after a start anew
pages_shown() {
    local board=$1 k before=0
    start "${compilers[0]}" --scale 1 --paused --board "$board" "$root/examples/pages.log"
    title "pages.log: picture 0, paused before line 0"
    panel_says "BOARD       $(printf '\\$%02X' "$board")"
    for k in "${@:2}" 3; do
        [ "$k" -ge "$before" ] || { keys r && before=0; }
        to_picture pages.log "$before" "$k"
        look pages "$(place)" examples/2c02.pal "$board" "$k"
        before=$k
    done
    quit q
}

# On four pages: quarters 0, 1, 3, 2 and pictures between them, and at last where they meet. Under the board that is taken without --board only two of
# them; under one whose pattern memory cannot be written the backdrop alone.
test_pages() {
    pages_shown 12 3 35 67 97 127 159 191 207 223
    pages_shown 9 35 127 223
    pages_shown 4 35
    say "the viewer's --board: examples/pages.log on four pages, and under other boards, is as reckoned"
}

# capture_shown NAME K..: these pictures of a capture have the emulator's finished colours
capture_shown() {
    local name=$1 k before=0
    start "${compilers[0]}" --scale 1 --paused --palette "$out/all.pal" --board "$(cat "$out/$name.board")" "$out/$name.log"
    title "$name.log: picture 0, paused before line 0"
    for k in "${@:2}"; do
        to_picture "$name.log" "$before" $((k + 2))
        look capture "$(place)" "$out/all.pal" "$name" "$k"
        before=$((k + 2))
    done
    quit q
}

# With emphasis, then in greyscale, by backdrop override, and so in greyscale; scrolled over four pages.
test_captures() {
    capture_shown ports_w1 51 52 53 54
    capture_shown scroll2_w4 10 25 40 55
    say "the viewer shows the emulator's finished colours: emphasis, greyscale and backdrop override of a capture, the four pages of another"
}

# 60 pictures a second, and the space bar
test_time() {
    local before after
    before=$(date +%s%N)
    start "${compilers[0]}" --until-picture 60 "$out/long.log"
    title "long.log: picture 60, paused before line 240"
    after=$(date +%s%N)
    local took=$(((after - before) / 1000000))
    if [ "$took" -lt 950 ] || [ "$took" -gt 9000 ]; then fail "60 pictures in $took ms"; fi
    keys space
    title "long.log: picture *, playing"
    keys space
    title "long.log: picture *, paused before line 240"
    local name
    name=$(xdotool getwindowname "$window")
    sleep 0.2
    title "$name"
    quit Escape
    say "60 pictures in $took ms, with the start; the space bar plays and pauses"
}

# What the panel says of a log's last record is what the player prints of it: the line that it prints for that record, or none for a write. After a
# run it says of the next line's search what tests/searches.py works out.
panel_like_player() {
    local log=$1 records printed wanted next nmi search
    records=$((($(stat -c %s "$log") + 3) / 4))
    start checked --scale 1 "$log"
    title "$(basename "$log"): picture *, end of log"
    look panel "$(place)" >"$out/panel"
    quit q
    "$prefix/bin/ppu-player" <"$log" >"$out/all"
    head -c $(((records - 1) * 4)) "$log" | "$prefix/bin/ppu-player" >"$out/before"
    printed=$(tail -n +$(($(wc -l <"$out/before") + 1)) "$out/all")
    case $printed in
    "") wanted=(DONE) ;;
    line*)
        read -r _ next _ nmi <<<"$printed"
        search=$(look search "$log")
        searches+="${search#SEARCH} "
        [ -z "$search" ] || next=$(printf '%-3s %s' "$next" "$search")
        wanted=(DONE "NEXT LINE   $next" "NMI LEVEL   $nmi")
        ;;
    refused*) wanted=("REFUSED ${printed#refused }: .*" "LAST REFUSAL ${printed#refused } AT $records") ;;
    *) wanted=("GAVE \$$printed") ;;
    esac
    local text
    for text in "RECORD $records/$records" "${wanted[@]}"; do
        grep -qx "$text" "$out/panel" || fail "$(basename "$log"): the player prints '$printed', and the panel has no '$text': $(cat "$out/panel")"
    done
    compared=$((compared + 1))
}

test_panel() {
    local compared=0 searches='' log
    for log in "$out"/panel-*.log; do
        panel_like_player "$log"
    done
    [ "$compared" -gt 10 ] || fail "no logs for the panel"
    [[ "$searches" = *64* && "${searches//64/}" = *[0-9]* ]] || fail "searches of the next line: $searches"
    say "the panel says of the last record what the player prints, on $compared logs, cut and bad and random ones too; with the sanitizers"
    say "the panel says of the next line's search what is worked out: $(xargs <<<"$searches") sprites looked at"
}

test_viewer() {
    local compiler
    for compiler in "${compilers[@]}"; do
        compile "$compiler" "$compiler" viewer "ppu sdl2"
    done
    compile checked "${compilers[0]}" viewer "ppu sdl2" -g -fsanitize=address,undefined -fno-sanitize-recover=all
    look logs "$out"
    test_bad_words
    if ! has Xvfb || ! has xdotool; then
        skip "the viewer's window, for want of Xvfb or xdotool"
        return
    fi
    start_server
    test_keys
    test_hits
    test_pictures
    test_pages
    test_captures
    test_time
    test_panel
}

archive=$(realpath "${PPU_ARCHIVE:-target/staticlib/libppu.a}")
text_archive=$(realpath "${PPU_TEXT_ARCHIVE:-target/staticlib/libtext.a}")
player=$root/target/bin/player
[ -f "$archive" ] || fail "no archive $archive: tools/archives ppu makes it"
[ -f "$text_archive" ] || fail "no archive $text_archive: tools/archives text makes it"
[ -x "$player" ] || fail "no player $player: ./play makes it"
compilers=()
for name in gcc clang; do
    ! has "$name" || compilers+=("$name")
done
[ ${#compilers[@]} -gt 0 ] || compilers=("${CC:-cc}")
tests/packages pkg-config libsdl2-dev xvfb xdotool || true
test_install
export PKG_CONFIG_PATH=$prefix/lib/pkgconfig ASAN_OPTIONS=detect_leaks=0 # SDL keeps some memory
under=()
if valgrind --quiet true 2>/dev/null; then under=(valgrind --quiet --error-exitcode=9); else skip "valgrind on minimal, split, two and text, which is not here"; fi
if has pkg-config; then
    test_packages
    test_minimal
    test_split
    test_two
    test_text
else
    skip "the examples, for want of pkg-config"
fi
if has pkg-config && pkg-config --exists sdl2; then
    test_viewer
else
    skip "the viewer, for want of SDL2"
fi
make_as_user uninstall PREFIX="$prefix"
[ -z "$(find "$prefix" -type f)" ] || fail "make uninstall leaves $(find "$prefix" -type f)"
say "all passed${skipped:+, but for what was skipped}"
