# The tables of instructions. First file: the pieces of work in their order, as `bench count` prints them: kind, name, calls or lines.
# Then callgrind's part for each, with names written out: where a function is called, the line after `calls=` has what the call cost.
# drawers: ppu plain_gcc table_gcc .., or ppu ppu_shared; a drawer's functions are ppu_run, ppu_read, .. A table without work is left out. Those of the
# archive before, if there is one, are before_run, before_read, .. and perhaps before_line, and have tables of their own.
BEGIN {
    FS = "\t"
    count = split(drawers, drawer, " ")
    for (k = 1; k <= count; k++)
        known[drawer[k]] = 1
    known["before"] = 1
}
FNR == 1 {
    file++
}
file == 1 {
    kind[FNR] = $1
    name[FNR] = $2
    units[FNR] = $3
    works = FNR
    next
}
# a drawer's call that it makes itself, as a peer's play its read, is in the cost of the outer one
function whose(function_name) {
    return match(function_name, /_(line|run|read|write|dma|search|play|text|page)$/) && substr(function_name, 1, RSTART - 1) in known ? substr(function_name, 1, RSTART - 1) : ""
}
/^fn=/ {
    caller = whose(substr($0, 4))
}
/^cfn=/ {
    callee = whose(substr($0, 5))
}
/^calls=/ {
    getline
    split($0, words, " ")
    if (callee != "" && caller == "")
        cost[file - 1, callee] += words[2]
}
function table(which, first, title, by, i, k, head, rule, any) {
    for (i = 1; i <= works; i++)
        any = any || kind[i] == which
    if (!any)
        return
    for (k = 1; k <= by; k++) {
        head = head " " drawer[k] " |"
        rule = rule "---|"
    }
    gsub(/_/, " ", head)
    printf "\n%s\n\n| %s |%s\n|---|%s\n", title, first, head, rule
    for (i = 1; i <= works; i++)
        if (kind[i] == which) {
            printf "| %s |", name[i]
            for (k = 1; k <= by; k++)
                printf(k == 1 ? " **%.0f** |" : " %.0f |", cost[i, drawer[k]] / units[i])
            printf "\n"
        }
}
# the archive's runs, a row for what is run, a column for each reason, by which the names of three pieces of work end
function reasons(i, what, last) {
    for (i = 1; i <= works; i++)
        if (kind[i] == "reason") {
            what = name[i]
            sub(/, `PPU_[A-Z_]*`$/, "", what)
            if (last == "") {
                printf "\ninstructions a line of `ppu_run`, by its reason to stop\n\n"
                printf "| lines of a call | `PPU_RUN_ALL` | `PPU_UNTIL_NMI` | `PPU_UNTIL_HIT` |\n|---|---|---|---|"
            }
            if (what != last)
                printf "\n| %s |", what
            printf " %.0f |", cost[i, drawer[1]] / units[i]
            last = what
        }
    if (last != "")
        printf "\n"
}
# the archive before and after, on what both can do
function beside(which, first, title, i, old, new, any) {
    for (i = 1; i <= works; i++)
        if (kind[i] == which && (i, "before") in cost) {
            if (!any++)
                printf "\n%s, before and after\n\n| %s | before | after | after / before | difference |\n|---|---|---|---|---|\n", title, first
            old = cost[i, "before"] / units[i]
            new = cost[i, drawer[1]] / units[i]
            printf "| %s | %.0f | **%.0f** | %.3f | %+.0f |\n", name[i], old, new, new / old, new - old
        }
}
END {
    table("frame", "screen", "instructions a line in runs of a frame", count)
    table("screen", "screen", "instructions a line, one to a call", count)
    table("call", "call", "instructions a call", count)
    table("page", "call", "instructions a page", count)
    table("shared call", "call", "instructions a call, plain and shared", count)
    table("shared line", "call", "instructions a line of a run, plain and shared", count)
    reasons()
    table("run", "lines a call", "instructions a line of `ppu_run`, pictures with about three sprites a line", 1)
    beside("frame", "screen", "instructions a line in runs of a frame")
    beside("screen", "screen", "instructions a line, one to a call")
    beside("reason", "lines of a call", "instructions a line of `ppu_run`, by its reason to stop")
    beside("call", "call", "instructions a call")
}
