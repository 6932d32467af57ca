# Prints a coterie of 64 voters and 4096 quorums of 33 members each: the 64 shifts of each of 64 sets, which are 31 voters in
# a row and two more. Any two sets of 33 of 64 voters have a common member.
#
#     awk -f bench/shifts.awk
BEGIN {
    printf "voters = ["; for (v = 0; v < 64; v++) printf "%s\"v%d\"", v ? ", " : "", v; printf "]\nquorums = [\n"
    for (x = 32; made < 64; x++)
        for (y = x + 1; y < 63 && made < 64; y++) {
            made++
            for (shift = 0; shift < 64; shift++) {
                printf "    ["; for (v = 0; v < 31; v++) printf "\"v%d\", ", (v + shift) % 64
                printf "\"v%d\", \"v%d\"],\n", (x + shift) % 64, (y + shift) % 64
            }
        }
    print "]"
}
