# count.awk: makes a table of bench/count's figures. A line of them: what is counted, the unit, the side, how many units, and the
# instructions for those and for twice as many.
BEGIN { FS = "\t" }

$2 != unit { finish(); unit = $2; sides = rows = 0 }

$1 != what || $3 == "library" { row = ++rows; what = $1; name[row] = what }

{
    if (row == 1)
        side[++sides] = $3
    per[row, $3] = ($6 - $5) / $4
    sum[$3] += per[row, $3]
}

function print_line(what, of, i) {
    printf "%-28s", what
    for (i = 1; i <= sides; i++)
        printf " %9s", of == 0 ? side[i] : sprintf("%.2f", of > 0 ? per[of, side[i]] : sum[side[i]] / rows)
    print ""
}

function finish(i) {
    if (unit == "")
        return
    print ""
    print_line("instructions a " unit, 0)
    for (i = 1; i <= rows; i++)
        print_line(name[i], i)
    if (unit != "call")
        print_line("mean", -1)
    for (i = 1; i <= sides; i++)
        sum[side[i]] = 0
}

END { finish() }
