# The table of spans that tools/route prints after a route.

table_head="# from   to  steps  gates  delay  spare  (half-ticks; 2T ="
guide_spans=$(guide '2T = 250')
told "the example" 0 "$(cat examples/detour.sheet)
$guide_spans" "" tools/route examples/detour.txt
same "the spans of the example in examples/README.md" "$guide_spans" "$(format '2T = 250')"
told "the guide's strip" 0 "$(guide 'route 0 2 26')" "" tools/route examples/strip.txt

spans() { # NAME FIRST-LINE 2T LINES TEXT: all but the visits
    told "the spans of $1" 0 "$2
$table_head $3)
$4" "" sh -c "tools/route $5 | grep '^[r#]'"
}
case_spans() { # NAME SED FIRST-LINE 2T LINES: the strip with a change
    sed "$2" examples/strip.txt >"$work/case.txt"
    spans "$1" "$3" "$4" "$5" "$work/case.txt"
}
# document 01's cases, worked out by hand
buffer='$a buffer R 1 K 1 C 1'
case_spans R2 's/^period.*/period 25/' "route 1 2 50 26" 50 "#    1    2      1      0     24     26
#    0    1      1      0     24     26"
case_spans R3 's/^period.*/period 12/' "route 1 2 24 0" 24 "#    1    2      1      0     24      0
#    0    1      1      0     24      0"
case_spans R5 's/^limit.*/limit 7/' "route 0 2 26 0" 52 "#    0    2      2      0     52      0"
case_spans R6 's/^limit.*/limit 6/' "route 1 2 52 28" 52 "#    1    2      1      0     24     28
#    0    1      1      0     24     28"
case_spans R8 "s/^period.*/period 22/; $buffer" "route 0 2 22 0" 44 "#    0    2      2      1     44      0"
case_spans R9 "s/^period.*/period 21/; $buffer" "route 1 2 42 18" 42 "#    1    2      1      0     24     18
#    0    1      1      0     24     18"
case_spans R10 "$buffer" "route 0 2 26 0" 52 "#    0    2      2      0     52      0"
spans R13 "route 1 4 24 0" 24 "#    4    2      2      0     24      0
#    0    4      2      0     24      0" examples/twice.txt
# both marks: the ends stand there, and a visit without a gate
case_spans "R2, the ends blocked taps" 's/^period.*/period 25/; s/^row.*/row xt t xt/' "route 1 2 50 26" 50 "#    1    2      1      0     24     26
#    0    1      1      0     24     26"
case_spans "R1, a blocked tap" 's/^row.*/row . xt ./' "route 0 2 26 0" 52 "#    0    2      2      0     52      0"
# with a skew, worked out by hand
case_spans "R1, skew 1" 's/^period.*/period 26\nskew 1/' "route 1 2 52 26" "52, twice the skew 2" "#    1    2      1      0     24     26
#    0    1      1      0     24     26"
case_spans "R1 a tick longer, skew 1" 's/^period.*/skew 1\nperiod 27/' "route 0 2 27 0" "54, twice the skew 2" "#    0    2      2      0     52      0"
case_spans "R1, skew 0" 's/^period.*/period 26\nskew 0/' "route 0 2 26 0" 52 "#    0    2      2      0     52      0"
case_spans "the longest period, skew 29,974" 's/^period.*/period 30000\nskew 29974/' "route 0 2 30000 0" "60000, twice the skew 59948" \
    "#    0    2      2      0     52      0"
spans "the strip with a skew" "route 1 2 52 26" "52, twice the skew 2" "#    1    2      1      0     24     26
#    0    1      1      0     24     26" examples/skewed.txt
case_spans "the longest period" 's/^period.*/period 30000/' "route 0 2 30000 59948" 60000 "#    0    2      2      0     52  59948"
edited 's/^period.*/period 120/'
spans "the example, the other way round" "route 4 23 600 16" 240 "#   59   63      4      0    144     96
#  123   59      4      0    192     48
#  116  123      7      1    224     16
#   52  116      4      0    192     48
#   48   52      4      0    144     96" "$work/bad.txt"
spans "the wide plan" "route 4 37 300 1" 120 "#  102    0      9      1    119      1
#   12  102      9      1    119      1
#   18   12      6      0     88     32
#   24   18      6      0     88     32
#   31   24      7      0    107     13" $here/wide.txt
spans "1,024 visits" "route 5 1023 22494 0" 7498 "#   91    0    170     79   7498      0
#    1   91    171     79   7498      0
#   93    1    171     79   7498      0
#    3   93    171     79   7498      0
#   94    3    170     79   7498      0
#    5   94    170     79   7498      0" $here/fits.txt

# What a table says of the sheet before it: a chain of registers + 1 spans, their steps, their smallest spare figure.
table_sums() { # FILE
    awk '
        $1 == "route" { figures = $2 + 1 " spans, " $3 " steps, spare " $5; next }
        $1 != "#" { if (!visits++) first = $1; source = $1; next }
        $2 == "from" { allowed = $11 - (NF > 11 ? $NF : 0); at = first; least = allowed; next }
        {
            if ($3 != at || $6 + $7 != allowed) print "line " NR " does not fit"
            at = $2
            count++
            steps += $4
            if ($7 < least) least = $7
        }
        END {
            found = count " spans, " steps " steps, spare " least
            if (found != figures || at != source) print found " up to cell " at ", not " figures
        }' "$1"
}
