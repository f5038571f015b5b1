# Makes one table of several of the same jobs: of each job the best time of each side, and the ratio of the two.
# A row has its name in columns 1 to 36, the two times in 38 to 49 and 51 to 62, the ratio, and from 73 on the aim or some other number.
FNR == 1 { line = 0; first = NR == 1 }
{ line++ }
first { text[line] = $0; lines = line }
substr($0, 38, 12) ~ /^ *[0-9.]+$/ {
    ours = substr($0, 38, 12) + 0
    plain = substr($0, 51, 12) + 0
    if (first || ours < best[line]) best[line] = ours
    if (first || plain < bestPlain[line]) bestPlain[line] = plain
}
END {
    for (i = 1; i <= lines; i++) {
        if (text[i] ~ / aim$/) hasAim = 1
        if (text[i] ~ / (accepted|bytes|waiting)$/) hasAim = 0
        if (!(i in best)) {
            print text[i]
            continue
        }
        ratio = best[i] / bestPlain[i]
        printf "%s %12.1f %12.1f %8.2f ", substr(text[i], 1, 36), best[i], bestPlain[i], ratio
        missed = hasAim && (ratio > substr(text[i], 73, 6) + 0)
        print (hasAim ? substr(text[i], 73, 6) : substr(text[i], 73)) (missed ? "  missed" : "")
    }
}
