# The results of bench/run, lines of MEASURE KIND MODE SIDE BYTES VALUE, as tables in Markdown. Of several lines for one thing the least
# counts.
BEGIN {
    goal["read"] = 5; goal["list"] = 5; goal["commands"] = 5; goal["rewrite"] = 5; goal["reformat"] = 10
    says["read"] = "reading every command"
    says["next"] = "the same, a call a command"
    says["list"] = "listing one code"
    says["commands"] = "rewriting every command"
    says["rewrite"] = "the same, the header through its table"
    says["reformat"] = "the programs, standard input to output"
    modes = split("read next list commands rewrite reformat", mode, " ")
}

{
    each = $6 / $5
    key = $1 SUBSEP $2 SUBSEP $3 SUBSEP $4 SUBSEP $5
    if (!(key in least) || each < least[key]) least[key] = each
    done[$1, $2, $3]
    if (!(($1, $2) in seen)) { seen[$1, $2]; kinds[$1] = kinds[$1] " " $2 }
    if (!(($1, $2, $5) in seen)) { seen[$1, $2, $5]; sizes[$1, $2] = sizes[$1, $2] " " $5 }
}

END {
    sides("ns", "Nanoseconds a byte", "%.2f")
    sides("insn", "Instructions a byte", "%.1f")
    ladder("size-ns", "Nanoseconds a byte of ours by size", "%.3f")
    ladder("size-insn", "Instructions a byte of ours by size", "%.2f")
}

function commas(n,    s) {
    for (s = ""; n >= 1000; n = int(n / 1000)) s = sprintf(",%03d", n % 1000) s
    return n s
}

function sides(measure, title, form,    k, i, n, kind, bytes) {
    if (!(measure in kinds)) return
    printf "### %s\n\n| dump | bytes | what | the crate | ours | ratio | goal |\n|---|---|---|---|---|---|---|\n", title
    n = split(kinds[measure], kind, " ")
    for (k = 1; k <= n; k++) {
        split(sizes[measure, kind[k]], bytes, " ")
        for (i = 1; i <= modes; i++) side(measure, kind[k], mode[i], bytes[1], form)
    }
    print ""
}

# Reading a call a command is held to the crate's reading, for information; from a program's time that of its start is taken.
function side(measure, kind, mode, bytes, form,    theirs, us, ratio) {
    us = least[measure, kind, mode, "ours", bytes]
    theirs = least[measure, kind, mode == "next" ? "read" : mode, "crate", bytes]
    if (measure == "ns" && mode == "reformat") {
        us -= least["start", kind, mode, "ours", bytes]
        theirs -= least["start", kind, mode, "crate", bytes]
    }
    ratio = us > 0 ? theirs / us : 0
    printf "| %s | %s | %s | " form " | " form " | %.1f | %s |\n", kind, commas(bytes), says[mode], theirs, us, ratio,
        mode in goal ? goal[mode] (ratio >= goal[mode] ? ", met" : ", not met") : ""
}

function ladder(measure, title, form,    k, i, n, kind) {
    if (!(measure in kinds)) return
    n = split(kinds[measure], kind, " ")
    headings(measure, title, kind[1])
    for (k = 1; k <= n; k++)
        for (i = 1; i <= modes; i++)
            if ((measure, kind[k], mode[i]) in done) steps(measure, kind[k], mode[i], form)
    print ""
}

function headings(measure, title, kind,    i, n, bytes, line) {
    printf "### %s\n\n| dump | what |", title
    line = "|---|---|"
    n = split(sizes[measure, kind], bytes, " ")
    for (i = 1; i <= n; i++) { printf " %s |", about(bytes[i]); line = line "---|" }
    printf " spread |\n%s---|\n", line
}

# A size that was cut at a line's end, by the power of two that it is near.
function about(bytes,    near) {
    if (bytes > 17000000) return "all"
    near = 2 ^ int(log(bytes / 1024) / log(2) + 0.5)
    return near < 1024 ? near " KB" : near / 1024 " MB"
}

function steps(measure, kind, mode, form,    i, n, bytes, v, low, high) {
    printf "| %s | %s |", kind, says[mode]
    n = split(sizes[measure, kind], bytes, " ")
    for (i = 1; i <= n; i++) {
        v = least[measure, kind, mode, "ours", bytes[i]]
        if (i == 1 || v < low) low = v
        if (i == 1 || v > high) high = v
        printf " " form " |", v
    }
    printf " %.1f per cent, %s |\n", 100 * (high / low - 1), high <= 1.1 * low ? "flat" : "not flat"
}
