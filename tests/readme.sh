#!/usr/bin/env bash
# The commands of README.md and of examples/README.md, as written, each from the project's root, with a home folder of the test's own; README.md's
# picture and its C sample. Those of tools/README.md are tested by tests/tools.sh, `.ci/run` by running it.
# PPU_ARCHIVE and PPU_TEXT_ARCHIVE name other archives than target/staticlib/libppu.a and libtext.a.
set -euo pipefail
cd "$(dirname "$0")/.."
archive=$(realpath "${PPU_ARCHIVE:-target/staticlib/libppu.a}")
text_archive=$(realpath "${PPU_TEXT_ARCHIVE:-target/staticlib/libtext.a}")
player=$(realpath target/bin/player)
out=$(mktemp -d)
trap 'rm -rf "$out"' EXIT
ran=0 skipped=0

fail() {
    echo "tests/readme.sh: $*" >&2
    exit 1
}

# The indented lines of a page that are commands, without what is said behind them.
commands_of() {
    sed '/^```/,/^```/d' "$1" | sed -n 's/^    \([.a-zA-Z$].*\)$/\1/p' | sed 's/ \{2,\}#.*//' | grep -v '\[--' || true
}

has() { command -v "$1" >/dev/null; }

# What cannot be run here: the gate itself, an install by hand, what needs a library or a server that is missing.
left_out() {
    case $1 in
    .ci/run* | sudo\ *) return 0 ;;
    target/viewer*) ! has Xvfb || ! pkg-config --exists sdl2 2>/dev/null ;;
    *sdl2*) ! pkg-config --exists sdl2 2>/dev/null ;;
    tools/ppu-picture*) [ ! -e /usr/include/png.h ] ;;
    *) return 1 ;;
    esac
}

# A window, for two seconds on an X server without a screen: it must still be open then.
on_screen() {
    local server status=0
    Xvfb -displayfd 1 -screen 0 1100x600x24 >"$out/display" 2>/dev/null &
    server=$!
    until [ -s "$out/display" ] || ! kill -0 "$server" 2>/dev/null; do sleep 0.1; done
    DISPLAY=:$(cat "$out/display") timeout 2 "$@" || status=$?
    kill "$server" 2>/dev/null
    [ "$status" -eq 124 ]
}
export -f on_screen
export out

# One command, in the shell that the commands before it have left. make takes these archives and this player as they are.
run_page() {
    local page=$1 command
    export HOME=$out/home
    mkdir -p "$HOME"
    : >"$out/commands"
    while IFS= read -r command; do
        if left_out "$command"; then
            echo "tests/readme.sh: $page: left out: $command"
            skipped=$((skipped + 1))
            continue
        fi
        case $command in
        make | make\ *) command="$command ARCHIVE=$archive TEXT_ARCHIVE=$text_archive PLAYER=$player" ;;
        target/viewer*) command="on_screen $command" ;;
        esac
        printf '%s || { echo %q >&2; exit 1; }\n' "$command" "tests/readme.sh: $page: failed: $command" >>"$out/commands"
        ran=$((ran + 1))
    done < <(commands_of "$page")
    bash -uo pipefail "$out/commands" >"$out/printed" 2>"$out/errors" || fail "$page: $(tail -n 3 "$out/errors")"
}

# README.md's picture is what its command has just drawn.
same_picture() {
    [ -e target/picture.png ] || return 0
    python3 tests/pictures.py scaled 1 docs/picture.png target/picture.png || fail "docs/picture.png is not what README.md's command draws"
    echo "tests/readme.sh: docs/picture.png is what README.md's command draws"
}

# The C sample, with a main around it, on a unit that was never made: all zero is well formed, so a line is run, all of it the backdrop.
sample() {
    sed -n '/^```c$/,/^```$/{/^```/!p}' README.md >"$out/sample.c"
    [ "$(wc -l <"$out/sample.c")" -ge 10 ] || fail "README.md has no C sample"
    echo 'int main(void) { palette[0] = 22; return picture_line() && unit[PPU_AT_NEXT_LINE] == 1 && ppu_colour(colours, 255) == 22 ? 0 : 1; }' \
        >>"$out/sample.c"
    "${CC:-cc}" -std=c99 -pedantic -Wall -Wextra -Werror -Iinclude -o "$out/sample" "$out/sample.c" "$archive" || fail "README.md's C sample"
    "$out/sample" || fail "README.md's C sample gives no line"
    echo "tests/readme.sh: the C sample compiles and runs a line, whose colours are there"
}

rm -f target/picture.png
run_page README.md
same_picture
sample
run_page examples/README.md
[ "$ran" -ge 8 ] || fail "only $ran commands found"
echo "tests/readme.sh: $ran commands of README.md and examples/README.md work as written, $skipped left out"
