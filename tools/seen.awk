# Of a netlist and a grading: the faults that are left open of nets from which some way leads to an output.
#     vwires nets DESIGN > NETLIST; vwires grade DESIGN STIM > GRADING; awk -f tools/seen.awk NETLIST GRADING
NR == FNR && /^(gate|latch) / { reads[$2] = $0 }
NR == FNR && /^(column|gate|latch) / { number[$3] = $2 }
NR == FNR && /^output / { waiting[count++] = $2 }
NR == FNR { next }
# before the first line of the grading: from the outputs back to all that they depend on
FNR == 1 {
    while (count) {
        net = waiting[--count]
        if (net in seen) continue
        seen[net] = 1
        nets++
        words = split(reads[net], word)
        for (place = 4; place <= words; place++) waiting[count++] = word[place]
    }
}
/^open / && (number[$2] in seen) { print; open++ }
END { print "revealed", 2 * nets - open, "of", 2 * nets }
