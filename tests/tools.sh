#!/usr/bin/env bash
# The commands of tools/ on the archives: pictures against the captures and against drawings of tests/pictures.py; texts against those of
# tests/texts.py; searches for sprite overflow against those of tests/searches.py and the captures' answers; ppu-log both ways; batches, one that goes
# on after an interruption too; bad input to each: one line, a status, no file left behind.
# PPU_ARCHIVE and PPU_TEXT_ARCHIVE name other archives than target/staticlib/libppu.a and libtext.a. Without libpng only ppu-log, ppu-text and
# ppu-search are tested, and it says so.
# shellcheck disable=SC2016 # a $ in quotes is the mark of a hexadecimal number here
set -euo pipefail
cd "$(dirname "$0")/.."
root=$PWD
ARCHIVE=$(realpath "${PPU_ARCHIVE:-target/staticlib/libppu.a}")
TEXT_ARCHIVE=$(realpath "${PPU_TEXT_ARCHIVE:-target/staticlib/libtext.a}")
export ARCHIVE TEXT_ARCHIVE
player=$root/target/bin/player
bin=$root/target/tests/tools/bin
work=$root/target/tests/tools/work
checks=0
trap 'rm -rf "$root/target/tests/tools"' EXIT

fail() {
    echo "tests/tools.sh: $*" >&2
    exit 1
}

passed() { checks=$((checks + ${1:-1})); }

pictures() {
    python3 "$root/tests/pictures.py" "$@" || fail "pictures.py $*"
    passed
}

texts() {
    python3 "$root/tests/texts.py" "$@" || fail "texts.py $*"
    passed
}

searches() {
    python3 "$root/tests/searches.py" "$@" || fail "searches.py $*"
    passed
}

same() { # WHAT FILE FILE
    cmp -s "$2" "$3" || fail "$1: $2 and $3 differ: $(head -c 300 "$2" | tr '\n' '/'), not $(head -c 300 "$3" | tr '\n' '/')"
    passed
}

# A command that must end with this status, one line on standard error like the pattern, nothing on standard output, no file more or less.
refuses() { # STATUS PATTERN COMMAND..
    local status=$1 pattern=$2 got=0 before after lines
    shift 2
    before=$(find .)
    "$@" >"$work/../said" 2>"$work/../errors" </dev/null || got=$?
    after=$(find .)
    mapfile -t lines <"$work/../errors"
    [ "$got" -eq "$status" ] || fail "$*: status $got, not $status; it said: ${lines[*]}"
    [ "${#lines[@]}" -eq 1 ] || fail "$*: not one line: ${lines[*]}"
    [[ "${lines[0]}" =~ $pattern ]] || fail "$*: said: ${lines[0]}, not $pattern"
    [ ! -s "$work/../said" ] || fail "$*: wrote to standard output"
    [ "$before" = "$after" ] || fail "$*: left other files: $after"
    passed
}

# A command that takes a board byte takes no other than 0 to 4 and 8 to 12.
refuses_boards() { # COMMAND..
    local board
    for board in 5 6 7 13 14 15 16 20 128 255; do
        refuses 2 "^$1: --board $board: (refused 3: )?not a board byte, 0 to 4 or 8 to 12 is\$" "$@" --board "$board"
    done
    for board in -1 256 x ''; do
        refuses 2 "^$1: --board $board: not a number from 0 to 255" "$@" --board "$board"
    done
}

text() { printf '%s\n' "$@"; }

# a log of these records
log_of() { # FILE RECORD..
    text "${@:2}" | ppu-log make -o "$1"
}

# LOGS

log_text() {
    text 'RUN 262' 'W 2006 21' 'W 2006 08' 'W 2007 42' 'W 2006 21' 'W 2006 08' 'R 2007' 'R 2007' 'R 2002' 'R 4000' >expected
    ppu-log show "$root/examples/paper.log" >shown
    same "the text of examples/paper.log" shown expected
    ppu-log show - <"$root/examples/paper.log" -o shown
    same "from standard input into a file" shown expected
    text '# a comment' '' $'  run\t262 # warm up\r' 'w $2006 21' 'W 2006 8' 'W 2007 42' 'W 2006 21' 'W 2006 08' 'r 2007' 'R 2007' 'R 2002' 'R 4000' |
        ppu-log make >made
    same "a text with comments and blanks" made "$root/examples/paper.log"
    text 'RAW 03 01 06 00' 'RAW 00 20 02 95' 'RAW 02 01 06 01' 'W FFFF FF' 'RUN 65535' 'R 0000' 'RUN 0' 'RAW 01 20' >expected
    ppu-log make expected | ppu-log show >shown
    same "records that are not well formed" shown expected
    rm expected shown made
}

# Every byte string comes back; with answers, which are the player's words.
round_trip() { # LOG
    ppu-log show --answers "$1" >shown
    ppu-log make shown -o back
    same "there and back" back "$1"
    sed -n 's/.*  # //p' shown >answers
    "$player" <"$1" >played
    same "the answers of $1" answers played
    [ "$(wc -l <shown)" -eq $((($(stat -c %s "$1") + 3) / 4)) ] || fail "$1: not a line for each record"
}

log_round_trips() {
    local log count=0
    for log in "$root"/examples/*.log captured/*.log raw/*; do
        round_trip "$log"
        count=$((count + 1))
    done
    [ "$count" -gt 40 ] || fail "only $count logs"
    rm shown back answers played
    echo "  ppu-log: $count logs to text and back, the captures and random bytes among them; the answers are the player's"
}

# Each quarter's first byte written, then read by port 7: what --answers says of it under each board, with the pages that its wiring gives.
log_boards() {
    local quarter wiring board bytes
    for quarter in 20 24 28 2C; do
        text "W 2006 $quarter" 'W 2006 00' "W 2007 $quarter"
    done >quarters
    for quarter in 20 24 28 2C; do
        text "W 2006 $quarter" 'W 2006 00' 'R 2007' 'R 2007'
    done >>quarters
    { text 'RUN 262' && cat quarters; } | ppu-log make -o quarters.log
    while read -r wiring bytes; do
        for board in "$wiring" $((wiring + 8)); do
            ppu-log show --answers --board "$board" quarters.log | sed -n 's/^R 2007  # //p' | sed -n 'n;p' | xargs >shown
            text "$bytes" >expected
            same "the first byte of each quarter under board $board" shown expected
        done
    done <<'BOARDS'
0 24 24 2C 2C
1 28 2C 28 2C
2 2C 2C 2C 2C
3 2C 2C 2C 2C
4 20 24 28 2C
BOARDS
    rm quarters quarters.log shown expected
    echo "  ppu-log: the answers under each board"
}

# The captures as they are and as the player takes them; byte strings of every length to 12 and longer ones, kinds mostly known.
make_logs() {
    mkdir captured raw
    pictures captures captured raw
    python3 - <<'PYTHON'
import random
random.seed(2)
for n in list(range(13)) + [random.randrange(4000) for _ in range(20)]:
    data = bytearray(random.randbytes(n))
    for at in range(0, n, 4):
        data[at] = random.choice((0, 0, 1, 1, 1, 2, data[at]))
        if at + 3 < n and data[at] != 1 and random.random() < 0.98:
            data[at + 3] = 0
        if at + 3 < n and data[at] != 2:
            data[at + 1] = random.choice((0x20, 0x3F, data[at + 1]))
        elif at + 3 < n:
            data[at + 1] = random.choice((0, 1))
    open(f"raw/{n}-{random.randrange(10**6)}", "wb").write(data)
PYTHON
}

log_errors() {
    refuses 2 'ppu-log: show or make' ppu-log
    refuses 2 'ppu-log: draw: neither show nor make' ppu-log draw
    refuses 2 'ppu-log: --colour: no such option' ppu-log show --colour
    refuses 2 'ppu-log: -o: an argument is missing' ppu-log show -o
    refuses 2 'ppu-log: --answers: only with show' ppu-log make --answers
    refuses_boards ppu-log show --answers
    refuses 2 'ppu-log: b: one file at a time' ppu-log show a b
    refuses 3 'ppu-log: nowhere: No such file' ppu-log show nowhere
    refuses 3 'ppu-log: captured: a folder' ppu-log make captured
    refuses 3 'ppu-log: /dev/full: cannot be written: No space' ppu-log show "$root/examples/paper.log" -o /dev/full
    refuses 3 'ppu-log: /proc/nowhere/text: No such file' ppu-log show "$root/examples/paper.log" -o /proc/nowhere/text
    refuses 3 'ppu-log: raw/efp/text: Not a directory' ppu-log show "$root/examples/paper.log" -o raw/efp/text
    local line
    while IFS='|' read -r line said; do
        text 'R 2002' '# a comment' "$line" >wrong.txt
        refuses 4 "^wrong.txt:3: $said" ppu-log make wrong.txt -o made
    done <<'LINES'
X 2002|X: not a record
R|R: takes an address
R 2002 00|R: takes an address
W 2006|W: takes an address and a byte
W 2006 123|123: not a byte
W 20060 12|20060: not an address
R $|\$: not an address
RUN 65536|65536: not a number of lines
RUN 1F|1F: not a number of lines
RUN|RUN: takes a number
RAW|RAW: takes one to four
RAW 1 2 3 4 5|RAW: takes one to four
RAW 0x|0x: not a byte
LINES
    text 'RAW 01 20' '' 'R 2002' >wrong.txt
    refuses 4 '^wrong.txt:3: R: a record behind one that is cut short' ppu-log make wrong.txt -o made
    refuses 4 'paper.log:1: a zero byte' ppu-log make "$root/examples/paper.log" -o made
    rm wrong.txt
}

# A command that a signal ends while it plays slow.log takes away what it had begun to write, shown.
interrupted() { # LOG COMMAND..
    local shower status=0 wait log=$1
    shift
    mkfifo slow.log
    exec 4<>slow.log
    "$@" 4>&- &
    shower=$!
    cat "$log" >&4
    for wait in $(seq 200); do
        [ ! -e "shown.$shower.part" ] || break
        sleep 0.02
    done
    [ "$wait" -lt 200 ] || fail "$*: no shown.$shower.part"
    kill -s TERM "$shower"
    wait "$shower" 2>/dev/null || status=$?
    exec 4>&-
    rm slow.log
    { [ "$status" -eq 143 ] && [ "$(ls)" = "$(text captured raw)" ]; } || fail "$*: ended by a signal: status $status, $(ls)"
    passed
}

# What a command says on standard error, besides its status, which must be this one.
says() { # STATUS FILE COMMAND..
    local status=0
    "${@:3}" >said 2>errors || status=$?
    [ "$status" -eq "$1" ] || fail "${*:3}: status $status, not $1; it said: $(cat errors)"
    same "what ${*:3} says" errors "$2"
}

# TEXTS

text_screens() {
    local count
    texts example
    texts pages
    texts quarters
    texts forms
    texts back
    count=$(texts captures captured)
    passed "$count"
    echo "  ppu-text: $count screens of the captures; all quarters under all boards, four pages too; both forms of a table, lines and JSON; texts to" \
        "pages and back"
}

text_options() {
    local log=$root/examples/picture.log table=$root/examples/picture.tbl
    ppu-text --table "$table" "$log" >all
    [ "$(grep -n picture all | tr '\n' ' ')" = "1:picture 1, quarter 0 32:picture 2, quarter 0 63:picture 3, quarter 0 94:picture 4, quarter 0 " ] ||
        fail "not four screens: $(grep -n picture all)"
    [ "$(wc -l <all)" -eq 124 ] || fail "$(wc -l <all) lines of four screens"
    sed -n '32,62p;94,124p' all >expected
    ppu-text --table "$table" --every 2 -o shown "$log"
    same "--every 2 -o FILE" shown expected
    sed -n '95,124p' all >expected
    ppu-text --table "$table" --last - <"$log" >shown
    same "--last of standard input" shown expected
    ppu-text --table - --last "$log" < <(printf '  02BCEHILMOS' && head -c 243 /dev/zero) >shown
    same "a table on standard input" shown expected
    sed 's/ *$//' expected >trimmed
    ppu-text --table "$table" --last --trim --quarter 0 "$log" >shown
    same "--trim" shown trimmed
    ppu-text --table "$table" --page shown -o page
    ppu-text --table "$table" --page expected >page2
    same "the page of trimmed lines" page page2
    { printf '\xEF\xBB\xBF; a comment\n\n// another\n\t# and another\n' && sed 's/^/ /' "$table"; } | sed 's/$/\r/' >MARKED.TBL
    ppu-text --table MARKED.TBL --last "$log" >shown
    same "a table with a byte order mark, comments, blanks and CR LF" shown expected
    passed 2
    rm all expected shown trimmed page page2 MARKED.TBL
}

# Tile $41 in the second picture and the third has no character, or one that cannot be shown. A refused record comes before it, and a 5 before both.
text_strict() {
    local before=('RUN 262' 'W 2006 20' 'W 2006 00' 'W 2007 41' 'RUN 262') log=tiles.log
    text '00= ' >some.tbl
    { printf ' ' && head -c 64 /dev/zero && printf '\a' && head -c 190 /dev/zero; } >bell
    log_of "$log" "${before[@]}" 'W 2007 41' 'RUN 262'
    text "ppu-text: $log: picture 2: 1 tile without a character" "ppu-text: $log: picture 3: 2 tiles without a character" >expected
    says 0 expected ppu-text --table some.tbl "$log"
    says 6 expected ppu-text --table some.tbl --strict "$log"
    says 6 expected ppu-text --table some.tbl --strict --json "$log"
    [ "$(grep -c '"tiles_without_character": [012]}$' said)" -eq 3 ] || fail "--json: $(cat said)"
    text "ppu-text: $log: picture 3: 2 tiles without a character" >expected
    says 6 expected ppu-text --table some.tbl --strict --last "$log"
    says 0 /dev/null ppu-text --table some.tbl --strict --quarter 1 "$log"
    text "ppu-text: $log: picture 2: 1 control character, written as ?" "ppu-text: $log: picture 3: 2 control characters, written as ?" >expected
    says 0 expected ppu-text --table bell --strict "$log"
    [ "$(grep -c '^??* *$' said)" -eq 2 ] || fail "control characters: $(cat said)"
    says 0 /dev/null ppu-text --table bell --strict --json "$log"
    [ "$(grep -o '\\u0007' said | wc -l)" -eq 3 ] || fail "control characters in JSON: $(cat said)"
    log_of "$log" 'R 1FFF' "${before[@]}" 'RAW 03 20 00 00' 'RUN 262'
    text "ppu-text: $log: record 1: refused 1: address \$1FFF is outside \$2000-\$3FFF" "ppu-text: $log: picture 2: 1 tile without a character" \
        "ppu-text: $log: record 7: refused 5: unknown kind \$03, not 0 read, 1 write or 2 run" >expected
    says 4 expected ppu-text --table some.tbl --strict "$log"
    [ "$(wc -l <said)" -eq 62 ] || fail "not the two screens before the 5"
    says 4 expected ppu-text --table some.tbl -o said.txt "$log"
    [ "$(wc -l <said.txt)" -eq 62 ] || fail "not the two screens before the 5 in a file"
    log_of "$log" 'R 1FFF' "${before[@]}"
    sed -i 3d expected
    says 0 expected ppu-text --table some.tbl "$log"
    says 1 expected ppu-text --table some.tbl --strict "$log"
    passed 5
    rm some.tbl bell "$log" said said.txt errors expected
}

# Of each kind of report the first ten are shown, and a sum.
text_many() {
    local k
    text '01=x' >some.tbl
    log_of many.log 'RUN 6026'
    for k in $(seq 10); do
        text "ppu-text: many.log: picture $k: 960 tiles without a character"
    done >expected
    text "ppu-text: many.log: $((23 * 960)) tiles without a character in all, in 23 screens" >>expected
    says 6 expected ppu-text --table some.tbl --strict many.log
    [ "$(wc -l <said)" -eq $((23 * 31)) ] || fail "not 23 screens"
    { text 'RUN 262' && printf 'R 4000\n%.0s' {1..5000}; } | ppu-log make -o many.log
    says 1 <(for k in $(seq 2 11); do
        text "ppu-text: many.log: record $k: refused 1: address \$4000 is outside \$2000-\$3FFF"
    done && text 'ppu-text: many.log: picture 1: 960 tiles without a character' \
        'ppu-text: many.log: 5000 records refused in all: 5000 with 1, 0 with 2, 0 with 3, 0 with 4, 0 with 5') ppu-text --table some.tbl --strict --last many.log
    passed
    rm some.tbl many.log said errors expected
}

text_table_errors() {
    local log=$root/examples/picture.log
    printf '%255s' '' >short
    printf '%257s' '' >long
    : >empty
    : >empty.tbl
    text '# a comment' '' '// another' >comments.tbl
    printf '# a comment\r41=A\r42=B\r' >cr.tbl
    refuses 3 'ppu-text: short: not a table: it has fewer than 256 bytes.* \.tbl.*41=A' ppu-text --table short "$log"
    refuses 3 'ppu-text: empty: not a table: it has fewer than 256 bytes' ppu-text --table empty "$log"
    refuses 3 'ppu-text: long: not a table: it has more than 256 bytes.* \.tbl.*41=A' ppu-text --table long "$log"
    refuses 3 'ppu-text: standard input: not a table: it has fewer' ppu-text --table - "$log"
    refuses 3 'ppu-text: nowhere.tbl: No such file' ppu-text --table nowhere.tbl "$log"
    refuses 3 '^ppu-text: empty.tbl: not a table: it has no entry like 41=A$' ppu-text --table empty.tbl "$log"
    refuses 3 '^ppu-text: comments.tbl: not a table: it has no entry like 41=A$' ppu-text --table comments.tbl -o shown "$log"
    refuses 3 '^ppu-text: comments.tbl: not a table: it has no entry like 41=A$' ppu-text --table comments.tbl --page -o shown /dev/null
    refuses 3 '^cr.tbl:1: a CR within the line: line ends are LF or CR LF$' ppu-text --table cr.tbl "$log"
    refuses 3 'ppu-text: captured: a folder' ppu-text --table captured "$log"
    rm short long empty empty.tbl comments.tbl cr.tbl
}

# Lines of a table that are no entries, from standard input: each with what is said of it.
wrong_entries() {
    local log=$root/examples/picture.log line said
    while IFS='|' read -r line said; do
        printf '%b\n' '00= ' '# a comment' "$line" '01=x' >wrong.tbl
        refuses 3 "^wrong.tbl:3: $said" ppu-text --table wrong.tbl -o shown "$log"
        refuses 3 "^wrong.tbl:3: $said" ppu-text --table wrong.tbl --page -o shown /dev/null
    done
    rm wrong.tbl
}

text_tile_errors() {
    wrong_entries <<'LINES'
@game|@game: no entry; an entry is one tile and one character, as in 41=A
*FE|\*FE: no entry
/FF=end|/FF=end: no entry
$FE=name,1|\$FE=name,1: no entry
!FE=name,1|!FE=name,1: no entry
41|41: no entry
41 =A|41 =A: no entry
=A|=A: no entry
4G=A|4G=A: no entry
0x41=A|0x41=A: no entry
4142=A|4142=A: a tile has two hexadecimal digits; an entry is one tile
1=A|1=A: a tile has two hexadecimal digits
00=x|tile \$00 has its character from line 1 already
LINES
}

text_value_errors() {
    wrong_entries <<'LINES'
41=|nothing behind =, not even a space; a tile without a character has no line$
41=\r|nothing behind =, not even a space
41=AB|'AB': more than one character behind =; an entry is one tile and one character, as in 41=A$
41=A |'A ': more than one character behind =
41=  |'  ': more than one character behind =
41=B ;note|'B ;note': more than one character behind =
41=A\t|'A\?': more than one character behind =
41=\xC3\xA9A|'éA': more than one character behind =
41=A\xE3\x81\x82\xE9\xC2\x85|'Aあ\?\?': more than one character behind =
41=123456789012345678901234567890123456789|'123456789012345678901234567890123456789': more than one
41=1234567890123456789012345678901234567890|'123456789012345678901234567890123456789'\.\.\.: more than one
41=\xE3\x81\x82|'あ': a character that is neither ASCII nor Latin-1, which a table of bytes cannot hold$
41=\xC4\x80|'Ā': a character that is neither ASCII nor Latin-1
41=\xF0\x9F\x98\x80|'😀': a character that is neither ASCII nor Latin-1
41=\x82\xA0|'\?\?': bytes that are not UTF-8: .* a character that is neither ASCII nor Latin-1, which a table of bytes cannot hold$
41=\xE9\xE8|'\?\?': bytes that are not UTF-8: more than one Latin-1 character, or
41=\xE9A|'\?A': bytes that are not UTF-8
41=\xC1\x81|'\?\?': bytes that are not UTF-8
41=\xE0\x81\x81|'\?\?\?': bytes that are not UTF-8
41=\xED\xA0\x80|'\?\?\?': bytes that are not UTF-8
41=\xF4\x90\x80\x80|'\?\?\?\?': bytes that are not UTF-8
41=A\r42=B|a CR within the line: line ends are LF or CR LF$
41=\t|a control character, \$09, behind =
41=\xC2\x85|a control character, \$85, behind =
41=\x93|a control character, \$93, behind =
41=A\x00|a zero byte: this is no text
LINES
}

# What is one character of a table: itself a mark of the format, a space, Latin-1 as a byte and in UTF-8.
text_table_characters() {
    printf '%b' '00==\n01= \n02=#\n03=;\n04=/\n05=\xE9\n06=\xC3\xA9\n07=\xC2\xA1\n08=\xFF\nfF="' >some.tbl
    log_of some.log 'RUN 262' 'W 2006 20' 'W 2006 00' 'W 2007 '{00,01,02,03,04,05,06,07,08,FF} 'RUN 240'
    ppu-text --table some.tbl --last some.log | head -n 1 >shown
    printf '%b' '= #;/éé¡ÿ"======================\n' >expected
    same "the characters of a table" shown expected
    rm some.tbl some.log shown expected
}

text_line_errors() {
    local table=$root/examples/picture.tbl
    text 'BLOOM' '' 'CHISEL 2C02?' >wrong.txt
    refuses 4 "^wrong.txt:3: column 12: '\?' is not in the table" ppu-text --page --table "$table" wrong.txt -o page
    refuses 4 "^standard input:1: column 1: 'x' is not in the table" bash -c 'echo x | ppu-text --page --table "$1"' bash "$table"
    printf 'BLOOM\nB\tC\n' >wrong.txt
    refuses 4 '^wrong.txt:2: column 2: \$09 is not in the table' ppu-text --page --table "$table" wrong.txt
    printf 'BLOOM\nO\xC3\xA9\n' >wrong.txt
    refuses 4 "^wrong.txt:2: column 2: 'é' is not in the table" ppu-text --page --table "$table" wrong.txt
    printf 'BLOOM\nO\xE9\n' >wrong.txt
    refuses 4 '^wrong.txt:2: column 2: bytes that are not UTF-8$' ppu-text --page --table "$table" wrong.txt
    printf 'BLOOM\nO\xE3\x81\x82\n' >wrong.txt
    refuses 4 '^wrong.txt:2: column 2: a character that is neither ASCII nor Latin-1$' ppu-text --page --table "$table" wrong.txt
    printf 'BLOOM\rCHISEL\r' >wrong.txt
    refuses 4 '^wrong.txt:1: a CR within the line: line ends are LF or CR LF$' ppu-text --page --table "$table" wrong.txt -o page
    printf 'BLOOM\nO\0\n' >wrong.txt
    refuses 4 '^wrong.txt:2: a zero byte: this is no text' ppu-text --page --table "$table" wrong.txt
    printf '%32s\n%33s\n' '' '' >wrong.txt
    refuses 4 '^wrong.txt:2: more than 32 characters' ppu-text --page --table "$table" wrong.txt -o page
    printf '\n%.0s' {1..31} >wrong.txt
    refuses 4 '^wrong.txt:31: a line too many: a page has 30 rows' ppu-text --page --table "$table" wrong.txt -o page
    text '01=B' '02=L' >some.tbl
    printf '%s\n' BLBLBLBLBLBLBLBLBLBLBLBLBLBLBLBL BLB >wrong.txt
    refuses 4 "^wrong.txt:2: column 4: ' ', for the rest of the row, is not in the table" ppu-text --page --table some.tbl wrong.txt -o page
    sed -i 2d wrong.txt
    refuses 4 "^wrong.txt:2: column 1: ' ', for the rest of the row, is not in the table" ppu-text --page --table some.tbl wrong.txt -o page
    rm wrong.txt some.tbl
}

text_page_errors() {
    local table=$root/examples/picture.tbl option
    printf '%1023s' '' >short
    printf '%1025s' '' >long
    refuses 3 'ppu-text: short: not a page: it has fewer than 1024 bytes' ppu-text --page --table "$table" --onto short /dev/null -o page
    refuses 3 'ppu-text: long: not a page: it has more than 1024 bytes' ppu-text --page --table "$table" --onto long /dev/null -o page
    refuses 3 'ppu-text: nowhere: No such file' ppu-text --page --table "$table" --onto nowhere /dev/null -o page
    refuses 3 'ppu-text: nowhere.txt: No such file' ppu-text --page --table "$table" nowhere.txt -o page
    refuses 3 'ppu-text: /dev/full: cannot be written: No space' ppu-text --page --table "$table" /dev/null -o /dev/full
    refuses 2 'ppu-text: --onto: only with --page' ppu-text --table "$table" --onto short a
    refuses 2 'ppu-text: b: one text at a time' ppu-text --page --table "$table" a b
    refuses 2 'ppu-text: standard input can be only one of the files' ppu-text --page --table -
    refuses 2 'ppu-text: standard input can be only one of the files' ppu-text --page --table "$table" --onto - -
    for option in last json trim strict every=2 quarter=1 board=1; do
        refuses 2 "ppu-text: --${option%=*}: not with --page" ppu-text --page "--$option" --table "$table" a
    done
    rm short long
}

text_errors() {
    local log=$root/examples/picture.log table=$root/examples/picture.tbl
    : >empty.log
    log_of short.log 'RUN 239' 'R 2002'
    log_of cut.log 'RUN 100' 'RAW 02 01 06'
    log_of long.log 'RUN 65535'
    refuses 2 'ppu-text: no table given: --table' ppu-text "$log"
    refuses 2 'ppu-text: no table given: --table' ppu-text --page
    refuses 2 'ppu-text: no log given' ppu-text --table "$table"
    refuses 2 'ppu-text: b: one log at a time' ppu-text --table "$table" a b
    refuses 2 'ppu-text: --colour: no such option' ppu-text --colour "$log"
    refuses 2 'ppu-text: --json=1: takes no argument' ppu-text --json=1 "$log"
    refuses 2 'ppu-text: --table: an argument is missing' ppu-text "$log" --table
    refuses 2 'ppu-text: --quarter 4: not a number from 0 to 3' ppu-text --table "$table" --quarter 4 "$log"
    refuses 2 'ppu-text: --quarter -1: not a number from 0 to 3' ppu-text --table "$table" --quarter -1 "$log"
    refuses 2 'ppu-text: --every 0: not a number' ppu-text --table "$table" --every 0 "$log"
    refuses 2 'ppu-text: --every and --last' ppu-text --table "$table" --every 2 --last "$log"
    refuses_boards ppu-text --table "$table" "$log"
    refuses 2 'ppu-text: --output: the name is empty' ppu-text --table "$table" -o '' "$log"
    refuses 2 'ppu-text: standard input can be only one of the files' ppu-text --table - -
    refuses 3 'ppu-text: nowhere.log: No such file' ppu-text --table "$table" nowhere.log -o shown
    refuses 3 'ppu-text: captured: a folder' ppu-text --table "$table" captured
    refuses 3 'ppu-text: /proc/nowhere/text: No such file' ppu-text --table "$table" -o /proc/nowhere/text "$log"
    refuses 3 'ppu-text: empty.log/text: Not a directory' ppu-text --table "$table" -o empty.log/text "$log"
    refuses 3 'ppu-text: /dev/full: cannot be written: No space' ppu-text --table "$table" -o /dev/full "$log"
    refuses 3 'ppu-text: standard output: cannot be written: No space' bash -c 'ppu-text --table "$1" --last "$2" >/dev/full' bash "$table" "$log"
    refuses 3 'ppu-text: shown: cannot be written: File too large' bash -c 'ulimit -f 8 && exec ppu-text --table "$1" -o shown "$2"' bash "$table" long.log
    refuses 4 'ppu-text: cut.log: record 2: refused 5: record cut short, 3 of 4 bytes' ppu-text --table "$table" -o shown cut.log
    refuses 5 'ppu-text: empty.log: the log is empty' ppu-text --table "$table" -o shown empty.log
    refuses 5 'ppu-text: short.log: no whole picture: the log ends before line 239' ppu-text --table "$table" -o shown short.log
    refuses 5 'ppu-text: .*: no picture: it has 4 whole pictures, --every 5' ppu-text --table "$table" --every 5 -o shown "$log"
    rm empty.log short.log cut.log long.log
}

# SEARCHES

search_pictures() {
    local said lines set answers bits
    searches figures
    searches example
    said=$(searches crowds)
    read -r lines set <<<"$said"
    [ "$set" -gt 500 ] || fail "of $lines lines of crowds only $set set the bit"
    passed "$lines"
    echo "  ppu-search: $lines lines of random crowds, under each board, $set of them set the bit"
    said=$(searches captures captured raw)
    read -r lines set answers bits <<<"$said"
    { [ "$set" -gt 500 ] && [ "$bits" -gt 100 ]; } || fail "of $lines lines of the captures $set set the bit, of $answers answers $bits have it"
    passed $((lines + answers))
    echo "  ppu-search: $lines lines of the captures, $set of them set the bit; status bit 5 of $answers answers of the emulator, set in $bits"
}

search_options() {
    local log=captured/rndram_w2.log
    ppu-search "$log" >all
    [ "$(grep -c '^picture ' all)" -gt 50 ] || fail "ppu-search: $(grep -c '^picture ' all) pictures"
    ppu-search -o shown "$log"
    same "ppu-search -o FILE" shown all
    ppu-search - <"$log" >shown
    same "ppu-search of standard input" shown all
    ppu-search --last --all "$log" >shown
    [ "$(wc -l <shown)" -eq 241 ] || fail "ppu-search --last --all: $(wc -l <shown) rows"
    passed 2
    rm all shown
}

# Refusals are said by record and number, and the play goes on, but not after a 5; the pictures before it are kept.
search_refusals() {
    local before=('RUN 262' 'R 1FFF' 'W 2001 08' 'R 2004' 'RUN 262')
    text 'ppu-search: refused.log: record 2: refused 1: address $1FFF is outside $2000-$3FFF' \
        'ppu-search: refused.log: record 4: refused 4: read of port 4 while drawing' >expected
    log_of refused.log "${before[@]}"
    says 0 expected ppu-search refused.log
    says 1 expected ppu-search --strict refused.log
    { text 'picture 1' '0 lines searched: bit set on none' 'picture 2' && printf 'line %u: 9 sprites looked at, set by sprite 8, Y $00\n' {0..7} &&
        text '240 lines searched: bit set on 8, first on line 0'; } >pictures
    same "the searches of an OAM that is all zero" said pictures
    log_of refused.log "${before[@]}" 'RAW 03 20 00 00' 'RUN 262'
    text 'ppu-search: refused.log: record 6: refused 5: unknown kind $03, not 0 read, 1 write or 2 run' >>expected
    says 4 expected ppu-search --strict refused.log
    same "the pictures before the 5" said pictures
    says 4 expected ppu-search -o said.txt refused.log
    same "the pictures before the 5 in a file" said.txt pictures
    rm refused.log expected said said.txt errors pictures
}

search_errors() {
    local log=$root/examples/picture.log
    : >empty.log
    log_of short.log 'RUN 239' 'R 2002'
    log_of cut.log 'RUN 100' 'RAW 02 01 06'
    log_of long.log 'RUN 65535'
    refuses 2 'ppu-search: no log given' ppu-search
    refuses 2 'ppu-search: b: one log at a time' ppu-search a b
    refuses 2 'ppu-search: --colour: no such option' ppu-search --colour "$log"
    refuses 2 'ppu-search: --all=1: takes no argument' ppu-search --all=1 "$log"
    refuses 2 'ppu-search: --every: an argument is missing' ppu-search "$log" --every
    refuses 2 'ppu-search: --every 0: not a number' ppu-search --every 0 "$log"
    refuses 2 'ppu-search: --every and --last' ppu-search --every 2 --last "$log"
    refuses_boards ppu-search "$log"
    refuses 2 'ppu-search: --output: the name is empty' ppu-search -o '' "$log"
    refuses 3 'ppu-search: nowhere.log: No such file' ppu-search -o shown nowhere.log
    refuses 3 'ppu-search: captured: a folder' ppu-search captured
    refuses 3 'ppu-search: empty.log/rows: Not a directory' ppu-search -o empty.log/rows "$log"
    refuses 3 'ppu-search: /dev/full: cannot be written: No space' ppu-search -o /dev/full "$log"
    refuses 3 'ppu-search: standard output: cannot be written: No space' bash -c 'ppu-search --last "$1" >/dev/full' bash "$log"
    refuses 3 'ppu-search: shown: cannot be written: File too large' bash -c 'ulimit -f 8 && exec ppu-search --all -o shown "$1"' bash long.log
    refuses 4 'ppu-search: cut.log: record 2: refused 5: record cut short, 3 of 4 bytes' ppu-search -o shown cut.log
    refuses 5 'ppu-search: empty.log: the log is empty' ppu-search -o shown empty.log
    refuses 5 'ppu-search: short.log: no whole picture: the log ends before line 239' ppu-search -o shown short.log
    refuses 5 'ppu-search: .*: no picture: it has 4 whole pictures, --every 5' ppu-search --every 5 -o shown "$log"
    rm empty.log short.log cut.log long.log
}

# PICTURES

# The emulator's pixel numbers, and its finished colours in a palette whose 512 colours all differ.
picture_captures() {
    local log board count said
    for log in captured/*.log; do
        board=$(cat "${log%.log}.board")
        ppu-picture --strict --board "$board" --grey -o drawn "$log"
        ppu-picture --strict --board "$board" --palette palettes/all.pal -o coloured "$log"
    done
    count=$(pictures same-numbers drawn)
    passed "$count"
    said=$(pictures same-colours palettes/all.pal coloured)
    { [ "${said% *}" = "$count" ] && [ "${said#* }" -gt 50 ]; } || fail "of $count pictures of the captures compared, and with emphasis: $said"
    passed "$count"
    rm -r drawn coloured
    echo "  ppu-picture: $count pictures of the captures, all 61,440 pixel numbers and finished colours of each, ${said#* } with emphasis"
}

# A last picture that is another one enlarged.
scaled() { # SMALL SCALE OPTION.. LOG
    ppu-picture --last --scale "$2" -o large.png "${@:3}"
    pictures scaled "$2" "$1" large.png
}

picture_options() {
    local log=$root/examples/picture.log
    ppu-picture "$log"
    [ "$(echo ./*.png)" = "./picture-0001.png ./picture-0002.png ./picture-0003.png ./picture-0004.png" ] || fail "not four pictures: $(echo ./*.png)"
    [ "$(stat -c %a picture-0001.png)" = "$(printf '%o' $((0666 & ~$(umask))))" ] || fail "picture-0001.png has mode $(stat -c %a picture-0001.png)"
    ppu-picture --grey -o grey "$log"
    pictures drawn 9 "$log" grey/picture-000[134].png
    pictures coloured "$root/examples/2c02.pal" "$log" grey/picture-0004.png picture-0004.png
    ppu-picture --last -o last.png "$log"
    same "--last -o FILE.png" last.png picture-0004.png
    ppu-picture --last --output=- - <"$log" >last.png
    same "--last -o -" last.png picture-0004.png
    ppu-picture --every 2 -o folder "$log"
    [ "$(ls folder)" = "$(text picture-0002.png picture-0004.png)" ] || fail "--every 2: $(ls folder)"
    same "--every 2" folder/picture-0002.png picture-0002.png
    ppu-picture --last -o folder - <"$log"
    same "the name of standard input" folder/picture-0004.png picture-0004.png
    ppu-picture -o folder/some.png --every 3 "$log"
    same "-o PATH.png" folder/some-0003.png picture-0003.png
    pictures every-colour emphasised.log
    ppu-picture --last -o emphasised.png emphasised.log
    scaled picture-0004.png 1 "$log"
    scaled picture-0004.png 3 "$log"
    scaled grey/picture-0004.png 16 --grey "$log"
    scaled emphasised.png 2 emphasised.log
    scaled emphasised.png 16 emphasised.log
    [ "$(ppu-picture --summary -o folder "$log")" = "pictures 4 of 4, records $(($(stat -c %s "$log") / 4)), refused 1:0 2:0 3:0 4:0 5:0" ] || fail "--summary"
    rm -r folder grey ./*.png emphasised.log
    echo "  ppu-picture: names, --last, --every, --scale, --grey, --summary, standard input and output"
}

# The scroll over four pages, under each board: all pictures against those worked out, and the last in its colours.
picture_boards() {
    local log=$root/examples/pages.log board count
    for board in 0 1 2 3 4 8 9 10 11 12; do
        ppu-picture --strict --board "$board" --grey -o "board$board" "$log"
        pictures drawn "$board" "$log" "board$board"/*.png
    done
    count=$(find board12 -name '*.png' | wc -l)
    [ "$count" -gt 200 ] || fail "examples/pages.log: $count pictures"
    ppu-picture --board 12 --last -o last.png "$log"
    pictures coloured "$root/examples/2c02.pal" "$log" "board12/pages-0$count.png" last.png
    ppu-batch --board 12 --last drawn "$log" >sum
    same "--board in a batch" "drawn/pages/pages-0$count.png" last.png
    passed $((10 * count))
    rm -r board* drawn sum last.png
    echo "  ppu-picture: the $count pictures of examples/pages.log, which scrolls over four pages, under each board"
}

# All 512 finished colours, in palettes of both lengths: one of 64 colours gives the pictures of the 512 that tests/pictures.py makes of it. Those
# without a palette are examples/2c02.pal's, which tools/palette.py writes, in both lengths and for C.
picture_palettes() {
    local palette name
    pictures every-colour picture.log
    cp "$root/examples/2c02.pal" palettes/2.pal
    python3 "$root/tools/palette.py" --emphasis palettes/2.512
    mkdir drawn
    for palette in all.pal {0,1,2}.{pal,512}; do
        ppu-picture --palette "palettes/$palette" -o "drawn/$palette" picture.log
        pictures every-row "palettes/$palette" "drawn/$palette"
    done
    ppu-picture -o drawn/none picture.log
    for name in 0 1 2; do
        diff -r "drawn/$name.pal" "drawn/$name.512" || fail "$name.pal: other pictures than those of its 512 colours"
        passed
    done
    diff -r drawn/none drawn/2.pal || fail "without --palette: other pictures than those of examples/2c02.pal"
    python3 "$root/tools/palette.py" >made
    same "examples/2c02.pal and what makes it" made "$root/examples/2c02.pal"
    python3 "$root/tools/palette.py" --c made
    same "examples/2c02.h and what makes it" made "$root/examples/2c02.h"
    passed
    rm -r drawn made picture.log
    echo "  ppu-picture: each of the 512 finished colours, in palettes of 64 and of 512 colours and without; tools/palette.py"
}

# A line's colours are those of its time. Cell 0 is $16, cell 1 $2A; 30 lines each, with the picture off: cell 0; in greyscale; with all emphasis;
# backdrop override by cell 1; so in greyscale, with red; by $3F10, which is cell 0, with green; v just below the palette. With the picture on v in
# the palette does nothing.
picture_lines() {
    local to=('W 2006 3F' 'W 2006 01')
    log_of rows.log 'RUN 262' 'W 2006 3F' 'W 2006 00' 'W 2007 16' 'W 2007 2A' 'W 2006 00' 'W 2006 00' 'RUN 30' 'W 2001 01' 'RUN 30' \
        'W 2001 E0' 'RUN 30' "${to[@]}" 'RUN 30' 'W 2001 21' 'RUN 30' 'W 2006 3F' 'W 2006 10' 'W 2001 40' 'RUN 30' 'W 2006 3E' 'W 2006 FF' 'RUN 30' \
        "${to[@]}" 'W 2001 88' 'RUN 30'
    ppu-picture --palette palettes/all.pal --last -o rows.png rows.log
    rgb() { tail -c +$((3 * $1 + 1)) palettes/all.pal | head -c 3 | od -An -tx1 | tr -d ' \n'; }
    pictures rows rows.png "$(rgb 0x016):30" "$(rgb 0x010):30" "$(rgb 0x1D6):30" "$(rgb 0x1EA):30" "$(rgb 0x060):30" "$(rgb 0x096):30" \
        "$(rgb 0x096):30" "$(rgb 0x116):30"
    rm rows.log rows.png
}

# A run goes on over line 241 with NMI on, and over many frames.
picture_runs() {
    log_of long.log 'RUN 262' 'W 2000 80' 'RUN 65535'
    [ "$(ppu-picture --last --summary -o long.png long.log)" = "pictures 1 of 251, records 3, refused 1:0 2:0 3:0 4:0 5:0" ] || fail "a run of 65535 lines"
    [ "$(ppu-log show --answers long.log | tail -n 1)" = "RUN 65535  # line 35 nmi 0" ] || fail "the answer of a run of 65535 lines"
    passed 2
    rm long.log long.png
}

# Refusals are said by record and number, and the play goes on, but not after a 5.
picture_refusals() {
    log_of refused.log 'RUN 262' 'R 1FFF' 'W 2001 08' 'R 2004' 'W 3FFF 12' 'R 200F' 'RUN 262' 'RAW 03 20 00 00' 'RUN 262'
    local status=0
    ppu-picture --summary -o refused refused.log >sum 2>errors || status=$?
    text 'ppu-picture: refused.log: record 2: refused 1: address $1FFF is outside $2000-$3FFF' \
        'ppu-picture: refused.log: record 4: refused 4: read of port 4 while drawing' \
        'ppu-picture: refused.log: record 5: refused 4: write of port 7 while drawing' \
        'ppu-picture: refused.log: record 6: refused 4: read of port 7 while drawing' \
        'ppu-picture: refused.log: record 8: refused 5: unknown kind $03, not 0 read, 1 write or 2 run' >expected
    same "the refusals" errors expected
    text 'pictures 2 of 2, records 8, refused 1:1 2:0 3:0 4:3 5:1' >expected
    same "their sum" sum expected
    { [ "$status" -eq 4 ] && [ "$(find refused -name '*.png' | wc -l)" -eq 2 ]; } || fail "status $status, or not the two pictures before the 5"
    log_of refused.log 'RUN 262' 'R 1FFF' 'RUN 1'
    ppu-picture -o refused refused.log 2>errors || fail "status $? though not --strict"
    status=0
    ppu-picture --strict -o refused refused.log 2>errors || status=$?
    { [ "$status" -eq 1 ] && [ "$(wc -l <errors)" -eq 1 ]; } || fail "--strict: status $status"
    { text 'RUN 262' && printf 'R 4000\n%.0s' {1..5000}; } | ppu-log make -o refused.log
    ppu-picture -o refused refused.log 2>errors
    { [ "$(wc -l <errors)" -eq 11 ] && grep -q ': 5000 records refused in all: 5000 with 1, 0 with 2' errors; } || fail "many refusals: $(wc -l <errors) lines"
    passed 4
    rm -r refused refused.log sum errors expected
    echo "  ppu-picture: refusals by record and number, what goes on and what ends, --strict"
}

# A record that is none ends the play where it stands, and 5 comes before the 1 or 4 that some of these would have: status 4, its place and why,
# the pictures before it and none behind it. ppu-log goes on with the text, without answers.
picture_bad_record() {
    local raw why status before=('RUN 262' 'W 2001 08' 'RUN 262') behind=('R 1FFF' 'RUN 262')
    log_of bad.log "${before[@]}"
    ppu-picture -o before bad.log
    while IFS='|' read -r raw why; do
        log_of bad.log "${before[@]}" "RAW $raw" "${behind[@]}"
        status=0
        ppu-picture --summary -o drawn bad.log >sum 2>errors || status=$?
        [ "$status" -eq 4 ] || fail "the bad record $raw: status $status"
        text "ppu-picture: bad.log: record 4: refused 5: $why" >expected
        same "the bad record $raw" errors expected
        text 'pictures 2 of 2, records 4, refused 1:0 2:0 3:0 4:0 5:1' >expected
        same "the sum up to the bad record $raw" sum expected
        diff -r before drawn || fail "the bad record $raw: other pictures than those before it"
        text 'RUN 262  # line 0 nmi 0' 'W 2001 08' 'RUN 262  # line 0 nmi 0' "RAW $raw  # refused 5" "${behind[@]}" >expected
        ppu-log show --answers bad.log >shown
        same "the text around the bad record $raw" shown expected
        passed 2
        rm -r drawn
    done <<'RECORDS'
03 20 02 00|unknown kind $03, not 0 read, 1 write or 2 run
FF 00 01 FF|unknown kind $FF, not 0 read, 1 write or 2 run
00 20 02 01|the last byte of a read is $01, not 0
00 20 07 80|the last byte of a read is $80, not 0
00 40 00 FF|the last byte of a read is $FF, not 0
02 01 06 01|the last byte of a run is $01, not 0
RECORDS
    rm -r before bad.log sum errors expected shown
    echo "  ppu-picture, ppu-log: a record that is none within a log ends its play there"
}

picture_errors() {
    local log=$root/examples/picture.log scale length outside
    : >empty.log
    log_of short.log 'RUN 239' 'R 2002'
    log_of cut.log 'RUN 100' 'RAW 02 01 06'
    log_of nonzero.log 'RAW 00 20 02 01'
    head -c 192 "$root/examples/2c02.pal" >some.pal
    refuses 2 'ppu-picture: no log given' ppu-picture
    refuses 2 'ppu-picture: b: one log at a time' ppu-picture a b
    refuses 2 'ppu-picture: --colour: no such option' ppu-picture --colour "$log"
    refuses 2 'ppu-picture: --scale: an argument is missing' ppu-picture "$log" --scale
    for scale in 0 17 -1 1.5 x ''; do
        refuses 2 "ppu-picture: --scale $scale: not a number from 1 to 16" ppu-picture --scale "$scale" "$log"
    done
    refuses 2 'ppu-picture: --every 0: not a number' ppu-picture --every 0 "$log"
    refuses 2 'ppu-picture: --every and --last' ppu-picture --every 2 --last "$log"
    refuses 2 'ppu-picture: --grey and --palette' ppu-picture --grey --palette some.pal "$log"
    refuses 2 'ppu-picture: --grey=1: takes no argument' ppu-picture --grey=1 "$log"
    refuses_boards ppu-picture "$log"
    refuses 2 'ppu-picture: --output -: only with --last' ppu-picture -o - "$log"
    refuses 3 'ppu-picture: nowhere.log: No such file' ppu-picture nowhere.log
    refuses 3 'ppu-picture: captured: a folder' ppu-picture captured
    refuses 3 'ppu-picture: nowhere.pal: No such file' ppu-picture --palette nowhere.pal "$log"
    for length in 0 1 191 193 384 1535 1537 65536; do
        head -c "$length" /dev/zero >some.pal
        [ "$length" -lt 1537 ] || length='more than 1536'
        refuses 3 "^ppu-picture: some.pal: not a palette: it has $length bytes, not 192 \\(64 colours\\) or 1536 \\(512 colours\\)\$" \
            ppu-picture --palette some.pal "$log"
    done
    refuses 3 'ppu-picture: empty.log/picture-0001.png: Not a directory' ppu-picture -o empty.log "$log"
    refuses 3 'ppu-picture: /proc/nowhere: the folder cannot be made' ppu-picture -o /proc/nowhere "$log"
    refuses 3 'ppu-picture: a/b: the folder cannot be made: No such file' ppu-picture -o a/b "$log"
    outside=$(mktemp -d) # a link in the repository would end rt ci
    ln -s /dev/full "$outside/full.png"
    refuses 3 "ppu-picture: $outside/full.png: cannot be written: No space" ppu-picture --last -o "$outside/full.png" "$log"
    rm -r "$outside"
    refuses 4 'ppu-picture: cut.log: record 2: refused 5: record cut short, 3 of 4 bytes' ppu-picture cut.log
    refuses 4 'ppu-picture: nonzero.log: record 1: refused 5: the last byte of a read is \$01, not 0' ppu-picture nonzero.log
    refuses 5 'ppu-picture: empty.log: the log is empty' ppu-picture empty.log
    refuses 5 'ppu-picture: short.log: no whole picture: the log ends before line 239' ppu-picture short.log
    refuses 5 'ppu-picture: .*: no picture: it has 4 whole pictures, --every 5' ppu-picture --every 5 "$log"
    rm empty.log short.log cut.log nonzero.log some.pal
}

# A picture that cannot be written whole, by a limit as on a full disk: it is not there, nor a part of it.
picture_full_disk() {
    local status=0
    (ulimit -f 8 && exec ppu-picture --scale 16 -o full captured/hit8.log 2>errors) || status=$?
    { [ "$status" -eq 3 ] && grep -q ': cannot be written: File too large' errors; } || fail "a file that cannot grow: status $status, $(cat errors)"
    [ -z "$(find full -name '*.part')" ] || fail "left $(ls full)"
    passed
    rm -r full errors
}

# BATCHES

sums() { # DONE PASSED FAILED PICTURES REFUSALS
    text "logs $(($1 + $2 + $3)): $1 done, $2 passed over, $3 failed" "pictures $4" "refused $5" >expected
    same "the sums of a batch" sum expected
}

batch_runs() {
    local none='0: 0 with 1, 0 with 2, 0 with 3, 0 with 4, 0 with 5' some='1: 1 with 1, 0 with 2, 0 with 3, 0 with 4, 0 with 5'
    local logs=("$root/examples/paper.log" "$root/examples/picture.log")
    ppu-batch drawn "${logs[@]}" >sum
    sums 2 0 0 5 "$some"
    ppu-picture -o alone "$root/examples/picture.log"
    diff -r -x .ppu-batch alone drawn/picture || fail "a batch draws something else than ppu-picture"
    text "${logs[@]}" | ppu-batch --list - drawn >sum
    sums 0 2 0 5 "$some"
    touch -d '1 hour' touched.log && cp "$root/examples/picture.log" touched.log
    ppu-batch --last drawn "${logs[@]}" touched.log >sum
    sums 3 0 0 3 "$some"
    [ "$(ls drawn/picture)" = picture-0004.png ] || fail "pictures of other options are left: $(ls drawn/picture)"
    rm drawn/picture/picture-0004.png
    ppu-batch --last drawn "${logs[@]}" >sum
    sums 1 1 0 2 "$some"
    touch -d '1 hour' touched.log
    ppu-batch --last drawn touched.log >sum
    sums 1 0 0 1 "$none"
    mkdir 'a b' c
    cp touched.log 'a b/x.log'
    cp touched.log c/x.log
    ppu-batch --last --paths drawn 'a b/x.log' ./c/x.log >sum
    sums 2 0 0 2 "$none"
    { [ -e 'drawn/a b_x/x-0004.png' ] && [ -e drawn/c_x/x-0004.png ]; } || fail "--paths: $(find drawn)"
    ppu-picture --grey --last -o grey.png touched.log
    ppu-batch --last --grey drawn touched.log >sum
    sums 1 0 0 1 "$none"
    same "--grey in a batch" drawn/touched/touched-0004.png grey.png
    rm -r drawn alone grey.png 'a b' c sum expected touched.log
}

# A share takes each Nth log, all shares together all logs; a run over the same folder then has nothing left to do.
batch_shares() {
    local k logs part
    text captured/*.log >list
    logs=$(wc -l <list)
    [ "$logs" -gt 5 ] || fail "only $logs captures to share"
    for k in 1 2 3; do
        part=$(((logs + 3 - k) / 3))
        ppu-batch --every 20 --share "$k/3" --list list drawn >sum
        grep -q "^logs $part: $part done, 0 passed over, 0 failed" sum || fail "share $k of 3: $(cat sum)"
        [ "$k" -gt 1 ] || [ "$(ls drawn)" = "$(sed -n '1~3p' list | xargs -n 1 basename -s .log)" ] || fail "not each third log in share 1 of 3: $(ls drawn)"
    done
    ppu-batch --every 20 --list list drawn >sum
    grep -q "^logs $logs: 0 done, $logs passed over, 0 failed" sum || fail "all shares: $(cat sum)"
    [ ! -e drawn/.part ] || fail "drawn/.part is left"
    passed 5
    rm -r drawn list sum
}

batch_failures() {
    local status=0
    log_of cut.log 'RUN 262' 'R 1FFF' 'RAW 02'
    : >empty.log
    ppu-batch drawn cut.log empty.log nowhere.log "$root/examples/picture.log" >sum 2>errors || status=$?
    sums 1 0 3 5 '2: 1 with 1, 0 with 2, 0 with 3, 0 with 4, 1 with 5'
    sort errors >sorted
    text 'ppu-batch: cut.log: record 3: refused 5: record cut short, 1 of 4 bytes' 'ppu-batch: empty.log: the log is empty, no picture' \
        'ppu-batch: nowhere.log: No such file or directory' >expected
    same "what failed" sorted expected
    { [ "$status" -eq 1 ] && [ "$(ls drawn)" = "$(text cut picture)" ] && [ "$(wc -l <drawn/cut/errors.txt)" -eq 2 ]; } || fail "status $status, $(ls drawn)"
    ppu-batch drawn cut.log "$root/examples/picture.log" >sum 2>errors && fail "a log that fails was passed over"
    sums 0 1 1 5 '2: 1 with 1, 0 with 2, 0 with 3, 0 with 4, 1 with 5'
    mkdir -p drawn/paper/mine
    ppu-batch drawn "$root/examples/paper.log" >sum 2>errors && fail "a folder that is not of ppu-batch was taken"
    { [ -d drawn/paper/mine ] && grep -q '^ppu-batch: drawn/paper: cannot be put in place' errors; } || fail "another's folder: $(cat errors)"
    passed 3
    rm -r drawn cut.log empty.log sum errors sorted expected
}

# A log that never ends stands for a long one: the batch is killed when a picture is there, and does it again from the whole log.
batch_interrupted() { # SIGNAL
    local batch status=0 wait
    mkfifo slow.log
    exec 4<>slow.log
    setsid ppu-batch drawn slow.log "$root/examples/picture.log" >sum 2>errors 4>&- &
    batch=$!
    cat captured/hit8.log >&4
    for wait in $(seq 200); do
        [ ! -e drawn/.part/slow/slow-0002.png ] || [ ! -e drawn/picture ] || break
        sleep 0.05
    done
    [ "$wait" -lt 200 ] || fail "no picture of the log after 10 s"
    kill -s "$1" -- "-$batch"
    wait "$batch" 2>/dev/null || status=$?
    exec 4>&-
    { [ "$status" -ne 0 ] && [ ! -e drawn/slow ]; } || fail "interrupted by $1: status $status, $(ls drawn)"
    if [ "$1" = TERM ]; then
        { [ "$status" -eq 130 ] && grep -q '^ppu-batch: interrupted' errors; } || fail "interrupted: status $status, $(cat errors)"
    fi
    rm slow.log
    cp captured/hit8.log slow.log
    ppu-batch drawn slow.log "$root/examples/picture.log" >sum
    sums 1 1 0 105 '0: 0 with 1, 0 with 2, 0 with 3, 0 with 4, 0 with 5'
    ppu-picture -o alone slow.log
    diff -r -x .ppu-batch alone drawn/slow || fail "other pictures after the interruption"
    [ ! -e drawn/.part ] || fail "drawn/.part is left: $(find drawn/.part)"
    passed 2
    rm -r drawn alone slow.log sum errors expected
}

batch_errors() {
    local log=$root/examples/picture.log
    refuses 2 'ppu-batch: no OUTDIR given' ppu-batch
    refuses 2 'ppu-batch: no logs given' ppu-batch drawn
    refuses 2 'ppu-batch: --colour: no such option' ppu-batch --colour drawn "$log"
    refuses 2 'ppu-batch: --scale: an argument is missing' ppu-batch drawn "$log" --scale
    refuses 2 'ppu-batch: --scale 99: not a number' ppu-batch --scale=99 drawn "$log"
    refuses_boards ppu-batch drawn "$log"
    refuses 2 'ppu-batch: --jobs 0: not a number' ppu-batch -j 0 drawn "$log"
    for share in 0/2 3/2 1 x/y; do
        refuses 2 "ppu-batch: --share $share: not K/N" ppu-batch --share "$share" drawn "$log"
    done
    refuses 2 'picture.log and x/picture.txt would both go to drawn/picture; --paths' ppu-batch drawn "$log" x/picture.txt
    refuses 3 'ppu-batch: nowhere: the list cannot be read' ppu-batch --list nowhere drawn
    refuses 3 'ppu-batch: nowhere.pal: No such file' ppu-batch --palette nowhere.pal drawn "$log"
    refuses 3 'ppu-batch: .*: not a palette: it has more than 1536 bytes' ppu-batch --palette captured/hit8.log drawn "$log"
    refuses 3 'ppu-batch: /proc/nowhere: the folder cannot be made' ppu-batch /proc/nowhere "$log"
    refuses 3 'ppu-batch: captured/hit8.log: the folder cannot be made' ppu-batch captured/hit8.log "$log"
}

# Only ppu-text takes the text archive. It is built again where either archive has changed, and only there.
builds() {
    local archive built
    refuses 1 'tools/build: ppu-none: no such command' "$root/tools/build" ppu-none
    mkdir built
    export OUT=$PWD/built
    TEXT_ARCHIVE=nowhere "$root/tools/build" ppu-log ppu-search || fail "ppu-log and ppu-search without the text archive"
    refuses 1 'tools/build: no archive nowhere' env TEXT_ARCHIVE=nowhere "$root/tools/build" ppu-text
    refuses 1 'tools/build: no archive nowhere' env ARCHIVE=nowhere "$root/tools/build" ppu-text
    cp "$ARCHIVE" ppu.a
    cp "$TEXT_ARCHIVE" text.a
    for archive in none ppu.a text.a; do
        built=$(stat -c %y built/ppu-text 2>/dev/null || true)
        [ "$archive" = none ] || ar rc "$archive" "$root/tests/tools.sh"
        ARCHIVE=ppu.a TEXT_ARCHIVE=text.a "$root/tools/build" ppu-text
        [ "$(stat -c %y built/ppu-text)" != "$built" ] || fail "ppu-text is not built again: $archive"
        built=$(stat -c %y built/ppu-text)
        ARCHIVE=ppu.a TEXT_ARCHIVE=text.a "$root/tools/build" ppu-text
        [ "$(stat -c %y built/ppu-text)" = "$built" ] || fail "ppu-text is built again: $archive"
    done
    passed 7
    unset OUT
    rm -r built ppu.a text.a
}

# What --help says of each number of a refusal: five lines, the same in the commands that play a log for its screens.
numbers() { # COMMAND..
    local name
    for name in "$@"; do
        "$name" --help | sed -n '/, and its number:$/,/^The play goes on/{/^  [0-9]/p}' >"numbers.$name"
        [ "$(cut -c 1-5 "numbers.$name" | tr -d ' \n')" = 12345 ] || fail "$name --help: other numbers: $(cat "numbers.$name")"
        same "the numbers of $name --help" "numbers.$name" "numbers.$1"
    done
    rm numbers.*
}

# What --help says of the boards.
boards() { # COMMAND..
    local name
    for name in "$@"; do
        "$name" --help | tr -s ' \n' ' ' >help
        grep -q -- '--board N .*board byte, 0 to 4 or 8 to 12' help || fail "$name --help: other board bytes"
        [ "$name" = ppu-log ] || grep -q '4 four pages (each quarter its own page, 4096 bytes of nametable RAM)' help ||
            fail "$name --help: not what wiring 4 is"
        passed
    done
    rm help
}

# In the source tree the commands build themselves; --help and --version of each.
from_the_tree() {
    local name
    for name in "$@"; do
        [ "$("$root/tools/$name" --help | head -c 12)" = "Usage: ppu-$(text "${name#ppu-}" | head -c 1)" ] || fail "tools/$name --help"
        [ "$name" = ppu-batch ] || [ -n "$("$root/tools/$name" --version)" ] || fail "tools/$name --version"
        passed
    done
}

# The commands of tools/README.md work as written, but for their folder, and print what it says they print.
readme() {
    local line commands=0 printed=0
    mkdir readme
    (
        cd "$root"
        grep -E '^    (tools/|cmp |find examples)' tools/README.md | sed "s| target/| ${work#"$root/"}/readme/|g" >"$work/commands"
        bash -euo pipefail "$work/commands" >"$work/printed"
    ) || fail "a command of tools/README.md failed"
    commands=$(wc -l <commands)
    while IFS= read -r line; do
        grep -Fxq -- "${line#    }" printed || fail "tools/README.md: nothing printed $line"
        printed=$((printed + 1))
    done < <(grep -E '^    (R|W|RUN|logs|pictures|refused|  ) |searched: bit set on none$' "$root/tools/README.md")
    { [ "$commands" -eq 19 ] && [ "$printed" -eq 15 ]; } || fail "tools/README.md: $commands commands and $printed lines they print"
    passed 2
    rm -r readme commands printed
}

[ -x "$player" ] || fail "no $player: ./play builds it"

# The installed commands beside each other.
mkdir -p "$bin" "$work"
OUT=$bin tools/build ppu-log ppu-text ppu-search
no_libpng=0
OUT=$bin tools/build ppu-picture || no_libpng=$?
[ "$no_libpng" -eq 0 ] || [ "$no_libpng" -eq 77 ] || fail "ppu-picture is not built"
cp tools/ppu-batch "$bin"
PATH=$bin:$PATH
cd "$work"
for name in log picture search text; do
    cmp "$root/tools/start" "$root/tools/ppu-$name" || fail "tools/ppu-$name is no copy of tools/start"
done
make_logs
log_text
log_round_trips
log_boards
log_errors
interrupted /dev/null ppu-log show slow.log -o shown
for part in text_screens text_options text_strict text_many text_table_errors text_tile_errors text_value_errors text_table_characters \
    text_line_errors text_page_errors text_errors; do
    $part
done
interrupted "$root/examples/picture.log" ppu-text --table "$root/examples/picture.tbl" slow.log -o shown
echo "  ppu-text: options, reports and statuses; tables, texts, logs and files that cannot be taken, by line and column"
for part in search_pictures search_options search_refusals search_errors; do
    $part
done
interrupted "$root/examples/picture.log" ppu-search slow.log -o shown
echo "  ppu-search: options, reports and statuses; logs and files that cannot be taken"
builds
from_the_tree ppu-log ppu-text ppu-search
numbers ppu-text ppu-search
boards ppu-log ppu-text ppu-search
if [ "$no_libpng" -eq 0 ]; then
    mkdir palettes
    pictures palettes palettes
    for part in picture_captures picture_options picture_boards picture_palettes picture_lines picture_runs picture_refusals picture_bad_record \
        picture_errors picture_full_disk batch_runs batch_shares batch_failures batch_errors; do
        $part
    done
    batch_interrupted TERM
    batch_interrupted KILL
    from_the_tree ppu-picture ppu-batch
    numbers ppu-text ppu-picture
    boards ppu-picture
    readme
    echo "  ppu-batch: passing over, other options, shares, failures, interruptions; the commands of tools/README.md"
else
    echo "tests/tools.sh: no libpng here and none could be installed; ppu-picture and ppu-batch are skipped"
fi
[ "$checks" -gt 100 ] || fail "only $checks checks"
echo "tests/tools.sh: $checks checks, all passed"
