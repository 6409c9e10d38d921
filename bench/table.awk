# table.awk: makes one table of the bench's figures, a file for each placement of the code: the means, each with its least and most.
# A line of figures: table, row, units, side, the side's time, the library's time as a multiple of it. A line of bytes: those of a listing.
BEGIN {
    FS = "\t"
    title["run"] = "run, a step"
    title["call"] = "one call within the arithmetic loop"
    title["compile"] = "compile, a row"
    title["listing"] = "listing, a line"
    unit["run"] = "steps"
    unit["call"] = "budget"
    unit["compile"] = "rows"
    unit["listing"] = "lines"
}

FNR == 1 { placements++ }

$1 == "placed" {
    if (!(($2, $3) in placed))
        places[$2]++
    placed[$2, $3]
    next
}

$1 == "bytes" { bytes[$2, $3] = $4; next }

{
    row = $1 FS $2 FS $3
    if (!((row, "library") in time))
        rows[++row_count] = row
    time[row, $4] += $5
    if ($4 == "library")
        next
    if (!($4 in known))
        anchors[++anchor_count] = $4
    known[$4]
    note(row, $4, $6)
    all[$1, $4, placements] += $6
    count[$1, $4, placements]++
}

function note(row, anchor, ratio, at) {
    at = row SUBSEP anchor
    if (!(at in times) || ratio < least[at])
        least[at] = ratio
    if (!(at in times) || ratio > most[at])
        most[at] = ratio
    sum[at] += ratio
    times[at]++
}

function mean(row, anchor) {
    return sum[row, anchor] / times[row, anchor]
}

# The mean over a table's rows, at each placement.
function note_means(table, anchor, i) {
    for (i = 1; i <= placements; i++)
        if ((table, anchor, i) in all)
            note(table, anchor, all[table, anchor, i] / count[table, anchor, i])
}

function ratio_of(row, anchor) {
    if (!((row, anchor) in times))
        return ""
    return sprintf("%.2f %.2f..%.2f", mean(row, anchor), least[row, anchor], most[row, anchor])
}

# A table has the cells of its own sides; a heading's are their names.
function print_line(table, what, units, time, row, is_heading, i, line) {
    line = sprintf("%-36s %7s  %9s", what, units, time)
    for (i = 1; i <= anchor_count; i++)
        if ((table, anchors[i], 1) in all)
            line = line sprintf("   %-15s", is_heading ? "/ " anchors[i] : ratio_of(row, anchors[i]))
    sub(/ +$/, "", line)
    print line
}

function print_table(table, last, i, part) {
    print ""
    print_line(table, title[table], unit[table], "library", table, 1)
    for (i = 1; i <= row_count; i++) {
        split(rows[i], part)
        if (part[1] == table)
            print_line(table, part[2], part[3], sprintf("%.2f ns", time[rows[i], "library"] / placements), rows[i])
    }
    for (i = 1; i <= anchor_count; i++)
        note_means(table, anchors[i])
    if (last != "")
        print_line(table, last, "", "", table)
}

# Of the C sides, the one that the library is held against is the fastest.
function say_run(i, a, best) {
    for (i = 1; i <= anchor_count; i++) {
        a = anchors[i]
        if (a != "plain Rust" && ("run", a) in times && (best == "" || mean("run", a) > mean("run", best)))
            best = a
    }
    printf "run: %.2f times %s, the fastest C here, in the mean of the four rules\n", mean("run", best), best
}

function say_worst(table, anchor, i, part, worst) {
    if (!((table, anchor) in times))
        return
    for (i = 1; i <= row_count; i++)
        if (index(rows[i], table FS) == 1 && (rows[i], anchor) in times && (worst == "" || mean(rows[i], anchor) > mean(worst, anchor)))
            worst = rows[i]
    split(worst, part)
    printf "%s: %.2f times %s in the mean of all rows, %.2f at worst (%s, %d %s)\n",
        table, mean(table, anchor), anchor, mean(worst, anchor), part[2], part[3], unit[table]
}

# Of a listing: the time of all lines as a multiple of the time of few.
function growth(what, side) {
    return 64 * time["listing" FS what FS 65536, side] / time["listing" FS what FS 1024, side]
}

function say_growth(what) {
    printf "listing: 65,536 lines take %.1f times as long as 1,024 (%s, %.1f times the bytes); in plain C %.1f\n",
        growth(what, "library"), what, bytes[what, 65536] / bytes[what, 1024], growth(what, "plain C")
}

END {
    print_table("run", "mean of the four rules")
    print_table("call", "")
    print_table("compile", "mean of all rows")
    print_table("listing", "")
    print ""
    say_run()
    for (i = 1; i <= anchor_count; i++)
        say_worst("compile", anchors[i])
    for (i = 1; i <= anchor_count; i++)
        say_worst("listing", anchors[i])
    say_growth("compiled code")
    say_growth("every line named")
    for (side in places)
        if (places[side] < 4) {
            print "failed: the code of " side " was linked at " places[side] " places modulo 64, not at four or more"
            exit 1
        }
}
