#!/usr/bin/env bash
# The player on logs: the document's example, logs of every small length, blocks cut at every offset, reads of one byte, refusals, a bad record around
# each block boundary, outputs that cannot be written.
# tests/log.sh speed plays ten million access records instead, to standard output's end, and prints seconds and memory (it needs GNU time).
set -euo pipefail
cd "$(dirname "$0")/.."
player=target/bin/player
block=16384
out=target/tests/log
mkdir -p "$out"

fail() {
    echo "tests/log.sh: $*" >&2
    exit 1
}

# bytes HEX..: the bytes of a log
bytes() {
    printf '%b' "$(printf '%s' "$@" | sed 's/../\\x&/g')"
}

# repeated N HEX..: the first N bytes of a log that repeats these records
repeated() {
    local n=$1
    shift
    bytes "$@" >"$out/part"
    while [ "$(stat -c %s "$out/part")" -lt "$n" ]; do
        cat "$out/part" "$out/part" >"$out/twice"
        mv "$out/twice" "$out/part"
    done
    head -c "$n" "$out/part"
}

# plays NAME: what the player prints of $out/log is $out/expected
plays() {
    "$player" <"$out/log" >"$out/printed"
    cmp -s "$out/printed" "$out/expected" || fail "$1: printed $(head -c 200 "$out/printed" | tr '\n' '/'), not $(head -c 200 "$out/expected" | tr '\n' '/')"
}

# in_reads NAME SIZE..: the same where the log comes in reads of these sizes, then the rest. The player may end before it has read all
in_reads() {
    local name=$1 size
    shift
    {
        for size; do
            dd bs="$size" count=1 status=none || true
            sleep 0.005
        done
        cat || true
    } <"$out/log" 2>"$out/errors" | "$player" >"$out/printed"
    cmp -s "$out/printed" "$out/expected" || fail "$name, in reads of $*: printed $(tail -n 3 "$out/printed" | tr '\n' '/'), not $(tail -n 3 "$out/expected" | tr '\n' '/')"
}

./play </dev/null >"$out/printed"
[ ! -s "$out/printed" ] || fail "an empty log prints something"

if [ "${1:-}" = speed ]; then
    # set an address, two data bytes, the scroll, a sprite byte; read the status, the data port, OAM
    repeated 40000000 01200621 01200608 01200742 0120073f 01200510 01200520 012003fc 01200480 00200200 00200700 00200400 00200200 >"$out/ten-million"
    /usr/bin/time -f "%e s, %M KiB at most" "$player" <"$out/ten-million" >/dev/null
    rm -f "$out/ten-million" "$out/part"
    exit
fi

cat >"$out/expected" <<'END'
line 0 nmi 0
00
42
02
refused 1
END
cp examples/paper.log "$out/log"
plays "the document's example"
bytes 02010600 01200621 01200608 01200742 01200621 01200608 00200700 00200700 00200200 00400000 | cmp -s - examples/paper.log || fail "examples/paper.log is not the document's example"

# the example in two reads, cut at every byte
for k in $(seq 0 40); do
    { head -c "$k" examples/paper.log; sleep 0.01; tail -c +$((k + 1)) examples/paper.log; } | "$player" >"$out/printed"
    cmp -s "$out/printed" "$out/expected" || fail "the example in two reads, the first of $k bytes"
done

# lengths 0 to 12, and those around one and two blocks: reads of the status, each "00", and "refused 5" for a cut record
for n in $(seq 0 12) $(seq $((block - 9)) $((block + 9))) $(seq $((2 * block - 9)) $((2 * block + 9))); do
    repeated "$n" 00200200 >"$out/log"
    repeated $((n / 4 * 3)) 30300a >"$out/expected"
    [ $((n % 4)) -eq 0 ] || echo "refused 5" >>"$out/expected"
    plays "a log of $n bytes"
    # the same of writes, which print nothing
    repeated "$n" 01200300 >"$out/log"
    : >"$out/expected"
    [ $((n % 4)) -eq 0 ] || echo "refused 5" >>"$out/expected"
    plays "a log of $n bytes of writes"
done

# a cut record in two reads, at every offset
for n in $(seq 1 12); do
    repeated "$n" 01200300 >"$out/log"
    for k in $(seq 0 "$n"); do
        { head -c "$k" "$out/log"; sleep 0.005; tail -c +$((k + 1)) "$out/log"; } | "$player" >"$out/printed"
        if [ $((n % 4)) -eq 0 ]; then : >"$out/expected"; else echo "refused 5" >"$out/expected"; fi
        cmp -s "$out/printed" "$out/expected" || fail "a log of $n bytes in two reads, the first of $k"
    done
done

# the longest lines, a block full of them and more: a run of 0 lines on line 261 with NMI on
{ bytes 02010600 01200080 0200f200; repeated 100000 02001300 02000000 0200f300; } >"$out/log"
"$player" <"$out/log" >"$out/printed"
[ "$(wc -l <"$out/printed")" -eq 25002 ] || fail "not a line for each run"
grep -qx "line 261 nmi 1" "$out/printed" || fail "no line 261 with NMI"
if grep -qvxE "line (0|[1-9][0-9]*) nmi [01]" "$out/printed"; then fail "a run printed something else"; fi

# refusals other than 5 do not end the play: 1; 4 while drawing; the status after them
bytes 00400000 001fff00 011fff00 02010600 01200108 00200700 00200400 01200700 00200200 >"$out/log"
printf 'refused 1\nrefused 1\nrefused 1\nline 0 nmi 0\nrefused 4\nrefused 4\nrefused 4\n08\n' >"$out/expected"
plays "refusals"

# refusal 5 ends it, before all others: an unknown kind, a last byte that is not 0
for record in 03200000 ff200000 00200201 02010601 00400001 03400000; do
    bytes 00200200 "$record" 00200200 >"$out/log"
    printf '00\nrefused 5\n' >"$out/expected"
    plays "the record $record"
done

# refusal 5 ends the play wherever its record stands: nothing behind it is played, neither a cut record nor 6,000 reads; around one and two blocks
repeated 80000 00200200 >"$out/reads"
repeated 60000 30300a >"$out/lines"
# refused_at N RECORD TAIL: N reads, this record, then so many bytes of reads
refused_at() {
    { head -c $((4 * $1)) "$out/reads"; bytes "$2"; head -c "$3" "$out/reads"; } >"$out/log"
    { head -c $((3 * $1)) "$out/lines"; echo "refused 5"; } >"$out/expected"
}
per=$((block / 4))
for n in 0 1 $(seq $((per - 2)) $((per + 2))) $(seq $((2 * per - 2)) $((2 * per + 2))); do
    for tail in 0 1 4 $((block + 1)) 24000; do
        refused_at "$n" 03200000 "$tail"
        plays "the record 03200000 after $n reads, $tail bytes behind it"
    done
    refused_at "$n" 00200201 24000
    plays "the record 00200201 after $n reads"
done
# the same in two reads and more, cut before, in and behind the record
for n in 0 $((per - 1)) "$per" $((per + 1)) $((2 * per - 1)) $((2 * per)) $((2 * per + 1)); do
    refused_at "$n" 03200000 24000
    for cut in 1 2 3 4 5; do
        in_reads "a bad record after $n reads" $((4 * n + cut))
    done
    refused_at "$n" 03200000 1
    in_reads "a bad record after $n reads and one byte" $((4 * n + 4))
done
# and where the input stays open
mkfifo "$out/open"
exec 3<>"$out/open"
bytes 00200200 03200000 >&3
timeout 5 "$player" <"$out/open" >"$out/printed" || fail "the player reads on after refused 5"
[ "$(tr '\n' '/' <"$out/printed")" = "00/refused 5/" ] || fail "refused 5, the input open"
exec 3>&-

# reads of one byte do not end the log: the example, small logs, and the bytes behind a block
cp examples/paper.log "$out/log"
printf 'line 0 nmi 0\n00\n42\n02\nrefused 1\n' >"$out/expected"
in_reads "the example byte by byte" $(printf '1 %.0s' $(seq 40))
for n in $(seq 1 9); do
    head -c "$n" "$out/reads" >"$out/log"
    head -c $((n / 4 * 3)) "$out/lines" >"$out/expected"
    [ $((n % 4)) -eq 0 ] || echo "refused 5" >>"$out/expected"
    in_reads "a log of $n bytes" $(printf '1 %.0s' $(seq "$n"))
done
for n in "$block" $((2 * block)); do
    head -c $((n + 8)) "$out/reads" >"$out/log"
    head -c $(((n + 8) / 4 * 3)) "$out/lines" >"$out/expected"
    in_reads "a log of $n bytes and 8" "$n" 1 1 1 1
    in_reads "a log of $n bytes and 8" $((n + 1))
    in_reads "a log of $n bytes and 8" 1 "$n" 1
    head -c $((n + 1)) "$out/reads" >"$out/log"
    { head -c $((n / 4 * 3)) "$out/lines"; echo "refused 5"; } >"$out/expected"
    in_reads "a log of $n bytes and one" "$n"
done

# capital letters
bytes 02010600 012002ab 00200200 012002bf 00200000 >"$out/log"
printf 'line 0 nmi 0\n0B\nBF\n' >"$out/expected"
plays "hex digits"

# an output that cannot be written ends the program, quietly: a closed pipe, with and without its signal, a full device, no output at all
repeated 4000000 00200200 >"$out/log"
for signal in default ignored; do
    (
        [ "$signal" = default ] || trap '' PIPE
        "$player" <"$out/log" 2>"$out/errors" || true
    ) | head -n 1 >"$out/printed"
    [ "$(cat "$out/printed")" = 00 ] && [ ! -s "$out/errors" ] || fail "a closed pipe, signal $signal"
done
for full in /dev/full -; do
    if [ "$full" = - ]; then
        timeout 10 "$player" <"$out/log" >&- 2>"$out/errors" || fail "no output at all: status $?"
    else
        timeout 10 "$player" <"$out/log" >"$full" 2>"$out/errors" || fail "$full: status $?"
    fi
    [ ! -s "$out/errors" ] || fail "$full: not quiet"
done
rm -rf "$out"
echo "tests/log.sh: all passed"
