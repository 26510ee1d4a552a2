# The lines of both programs as one table: the lowest of each unit's medians, and in brackets the highest.
FNR == 1 { side = FILENAME ~ /ours\.[0-9]+$/ ? "ours" : "rust" }
{
    if (!($1 in known)) { known[$1]; units[++count] = $1 }
    key = $1 SUBSEP side
    if (!(key in low) || $3 + 0 < low[key]) low[key] = $3 + 0
    if (!(key in high) || $3 + 0 > high[key]) high[key] = $3 + 0
}
function cell(unit, side) {
    if (!((unit, side) in low)) return "-"
    return sprintf("%.1f (%.1f)", low[unit, side], high[unit, side])
}
END {
    printf "%-22s %24s %24s %8s\n", "ns per call", "ours", "Rust", "ratio"
    for (i = 1; i <= count; i++) {
        unit = units[i]
        both = ((unit, "ours") in low) && ((unit, "rust") in low)
        ratio = both ? sprintf("%.2f", low[unit, "ours"] / low[unit, "rust"]) : "-"
        printf "%-22s %24s %24s %8s\n", unit, cell(unit, "ours"), cell(unit, "rust"), ratio
    }
}
