# the chip of each cell, in order
$1 == "gate" || $1 == "latch" {
    chips = chips " " (1 + int(cells / room))
    cells++
}
# one line, as the second one of a plan
END {
    print "chips" chips
}
