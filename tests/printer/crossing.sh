# tools/route between two clocks, with the real session player: what is expected was worked out by hand or by a search
# written apart. It uses what refusals.sh, drawings.sh and two_clocks.sh have set up.

told "the example between two clocks" 0 "$(cat $here/two_clocks.sheet)" "" tools/route $two
picture 0 two_clocks $two
drawing 0 "of two clocks" $two "16 visits, 16 points, 8 taps, 16 blocked, 3 cuts, 1 FIFOs"
told "the guide's strip, by the planner" 0 "$(guide 'crossing 1 0 4 52 0')" "" tools/route "$cross"
from_pipe() { tools/route - <$two; }
told "two clocks on standard input" 0 "$(cat $here/two_clocks.sheet)" "" from_pipe
own=$work/own.sheet
tools/route $two >"$own"
told "its sheet for a verdict" 2 "" "own.sheet:1: 'crossing 1 1 15 260 4' $head_form" tools/verdict examples/detour.txt "$own"

crossed() { # NAME FIRST-LINE 2T LINES TEXT SED: all but the visits
    sed "$6" "$5" >"$work/case.txt"
    told "$1" 0 "$2
$cross_head $3)
$4" "" sh -c "tools/route $work/case.txt | grep '^[c#]'"
}
clocks() { echo "s/^clocks.*/clocks $1/"; } # PERIODS
# the example with other clocks: the FIFO moves
crossed "a slow port" "crossing 3 0 15 340 8" "110 source, 240 sink" "#   30    8   35    7      5      0    240    154     86
#    6    7   30    8      2      0    110     96     14
#    3    7    6    7      3      0    110    102      8
#   27    7    3    7      2      0    110     76     34
#   24    7   27    7      3      0    110    102      8" $two "$(clocks '55 120')"
crossed "a fast port" "crossing 3 0 17 355 4" "150 source, 110 sink" "#   22    8   35    7      2      0    110     76     34
#   22    7   22    8      2      0    150     96     54
#    6    7   22    7      5      1    150    144      6
#   27    7    6    7      5      1    150    146      4
#   24    7   27    7      3      0    150    102     48" $two "$(clocks '75 55')"
open='/^row/s/xt/t/' # the blocked tap in the port's logic
crossed "a fast port, a FIFO on the tap that was blocked" "crossing 2 0 15 280 6" "150 source, 110 sink" "#   33    8   35    7      2      0    110     76     34
#   30    7   33    8      3      0    150    124     26
#    3    7   30    7      5      1    150    144      6
#   24    7    3    7      5      1    150    144      6" $two "$(clocks '75 55'); $open"
crossed "a slow fabric" "crossing 0 1 15 280 0" "240 source, 160 sink" "#   22    7   35    7      2      0    160     76     84
#    6    8   22    7      5      0    160    154      6
#   24    7    6    8      8      2    240    240      0" $two "$(clocks '120 80')"
crossed "a port less fast, a register on the tap that was blocked" "crossing 3 1 15 362 8" "110 source, 142 sink" "#   33    7   35    7      2      0    142     76     66
#   30    8   33    7      3      0    142     98     44
#    6    7   30    8      2      0    110     96     14
#    3    7    6    7      3      0    110    102      8
#   27    7    3    7      2      0    110     76     34
#   24    7   27    7      3      0    110    102      8" $two "$(clocks '55 71'); $open"

# the strip, by hand
whole() { # NAME OUTPUT SED: the visits too, without the table
    sed "$3" "$cross" >"$work/case.txt"
    told "the strip with $1" 0 "$2" "" sh -c "tools/route $work/case.txt | grep -v '^#'"
}
as_register='s/^fifo.*/fifo R 1 K 2 C 1 setup 1/'
whole "a FIFO like the register" "crossing 1 0 4 50 0
4 7
3 0
2 8
1 7
0 7" "$(clocks '12 26'); $as_register"
whole "a slow sink" "crossing 0 0 4 113 0
4 7
3 0
2 0
1 8
0 7" "$(clocks '13 100')"
whole "a fast sink" "crossing 0 1 4 66 2
4 7
3 7
2 8
1 0
0 7" "$(clocks '40 13')"
# every split has the latency 52; 7 comes before 8
whole "clocks alike" "crossing 0 2 4 52 0
4 7
3 7
2 7
1 8
0 7" "$(clocks '13 13')"
single="$(clocks '12 12'); $as_register; s/^sink.*/sink 2/"
whole "a single tap, the ends on blocked taps" "crossing 0 0 2 24 0
2 7
1 8
0 7" "$single; s/^row.*/row xt t xt/"
# twice the skew on both sides: 13 and 26 with a skew are what the period less it is without
whole "a skew" "crossing 1 0 4 58 0
4 7
3 0
2 8
1 7
0 7" "$(clocks '15 28\nskew 2')"
whole "the largest skew that is in time" "crossing 1 0 4 89974 0
4 7
3 0
2 8
1 7
0 7" "$(clocks '29987 30000\nskew 29974')"
none_crossed() { # NAME TEXT SED
    sed "$3" "$2" >"$work/case.txt"
    told "$1" 1 none "case.txt: $no_reason" tools/route "$work/case.txt"
}
none_crossed "no tap" "$cross" 's/^row.*/row . . . . ./; s/^clocks.*/clocks 30000 30000/'
none_crossed "a single tap, blocked" "$cross" "$single; s/^row.*/row . xt ./"
none_crossed "a port just too fast" $two "$(clocks '55 71')"
none_crossed "a FIFO whose load is above the limit" "$cross" 's/ C 1 setup 2/ C 11 setup 2/; s/^limit.*/limit 10/; s/^clocks.*/clocks 30000 30000/'
none_crossed "a FIFO whose setup is too long" "$cross" 's/setup 2/setup 14/'
none_crossed "a source's period just too short" "$cross" "$(clocks '12 30000')"
none_crossed "a source that is too fast" $two "$(clocks '50 90')"
none_crossed "a skew too much for the source" "$cross" "$(clocks '13 30000\nskew 1')"
none_crossed "a skew too much for the sink" "$cross" "$(clocks '30000 12\nskew 1')"
none_crossed "a skew above a period" "$cross" "$(clocks '13 30000\nskew 14')"
none_crossed "ends walled off" "$cross" 's/^row.*/row . t t| t ./'
told "none between two clocks, drawn" 1 "none

row cell  0     1     2     3     4
  0    0 S.  -  t  -  t  /  t  - K.

$legend" "case.txt: $no_reason" tools/route --picture "$work/case.txt"

# more cells than the route printer takes: a plan of 32 by 32, its wires without delay
{
    printf 'row t%s\n' "$(printf ' .%.0s' {1..31})"
    yes "row$(printf ' .%.0s' {1..32})" | head -n 31
    printf 'source 31 31\nsink 0 1\nclocks 3 5\nlimit 63\nhorizontal R 0 C 0\nvertical R 0 C 0\n'
    printf 'register R 0 K 1 C 0 setup 1\nfifo R 0 K 2 C 0 setup 2\n'
} >"$work/case.txt"
told "32 by 32" 0 "crossing 0 0 63 8 0
# from code   to code  steps  gates     2T  delay  spare  (half-ticks; 2T = 6 source, 10 sink)
#    0    8    1    7      1      0     10      6      4
# 1023    7    0    8     62      0      6      6      0" "" sh -c "tools/route $work/case.txt | grep '^[c#]'"

# ---- refusals, in this call's order
refuse_two() { # NUMBER LINE: REASON, SED
    two_edited "$3"
    told "$two with '$3'" 3 "refused $1" "bad.txt:$2 (refusal $1)" tools/route "$work/bad.txt"
}
more='s/^buffer R 3 .*/&\n&\n&\n&\n&\n&/'
refuse_two 1 "$(two_line '# row 0'): the plan's width is 36 and its height 5; $sides" 's/^row  *\([^#]*\)#.*/row \1 \1 \1/; s/^clocks.*/clocks 0 0/'
refuse_two 1 "$(two_line '^source'): the plan's width is 40 and its height 40; $sides" 's/^row.*//; s/^source.*/size 40 40\nsource 0/; s/^sink.*/sink 1/'
refuse_two 3 "$(two_line '# row 0'): cell 0 (row 0, column 0) has marks 300, outside 0 to 15" '0,/^row *\./s//row 300/; s/^clocks.*/clocks 0 0/'
refuse_two 3 "$(two_line '# row 4'): cell 59 (row 4, column 11) cuts the wire below, and the last row has none" 's/^\(row .*\)\.\( *# row 4\)/\1._\2/'
for period in 0 30001 65535; do
    refuse_two 4 "$clocks: source period $period is outside 1 to 30000" "s/^clocks.*/clocks $period 0/; s/^limit.*/limit 64/"
    refuse_two 4 "$clocks: sink period $period is outside 1 to 30000" "s/^clocks.*/clocks 55 $period/; s/^limit.*/limit 64/"
done
refuse_two 4 "$clocks: sink period 0 is outside 1 to 30000" 's/^clocks.*/clocks 55 0/; s/^limit.*/skew 30001\n&/'
for skew in 30001 65535; do
    refuse_two 4 "$(two_line '^limit'): skew $skew is outside 0 to 30000" "s/^limit.*/skew $skew\nlimit 64/"
done
refuse_two 4 "$(two_line '^limit'): limit 64 is outside 0 to 63" 's/^limit.*/limit 64/; s/^horizontal R 1/horizontal R 256/'
refuse_two 4 "$(two_line '^horizontal'): horizontal R 256 is outside 0 to 255" 's/^\(horizontal\|vertical\) R 1/\1 R 256/'
refuse_two 4 "$(two_line '^vertical'): vertical C 64 is outside 0 to 63" 's/^vertical R 1 C 2/vertical R 1 C 64/; s/^register R 3/register R 256/'
refuse_two 4 "$(two_line '^register'): register K 1001 is outside 0 to 1000" 's/^register R 3 K 8/register R 3 K 1001/; s/^fifo R 2/fifo R 256/'
refuse_two 4 "$fifo: fifo R 256 is outside 0 to 255" "s/^fifo R 2/fifo R 256/; $more"
refuse_two 4 "$fifo: fifo K 1001 is outside 0 to 1000" "s/ K 14/ K 1001/; $more"
refuse_two 4 "$fifo: fifo C 64 is outside 0 to 63" 's/ C 3 setup 9/ C 64 setup 9/; s/^buffer R 1/buffer R 256/'
refuse_two 4 "$fifo: fifo setup 30001 is outside 0 to 30000" 's/ setup 9/ setup 30001/; s/^sink.*/sink 60/'
refuse_two 4 "$(($(two_line '^buffer R 3') + 6)): 7 buffers are given, and at most 6 are taken" "$more; s/^buffer R 1/buffer R 256/"
refuse_two 4 "$(two_line '^buffer R 1'): buffer 2 K 1001 is outside 0 to 1000" 's/^buffer R 1 K 7/buffer R 1 K 1001/; s/^sink.*/sink 60/'
refuse_two 5 "$(two_line '^sink'): sink 60 is not in the plan, whose cells are 0 to 59" 's/^sink.*/sink 60/'
refuse_two 5 "$(two_line '^sink'): source and sink are both cell 24 (row 2, column 0)" 's/^sink.*/sink 2 0/'

# ---- two clocks alike, and a FIFO like the register: the route of one clock, its last register from the sink the FIFO
alike='s/^period \(.*\)/clocks \1 \1/; s/^register \([^#]*\).*/&\nfifo \1/'
of_one() { # SHEET: of one clock, at least one register
    tac "$1" | awk '/^#/ { next } $1 == "route" { print "crossing", 0, $2 - 1, $3, $4, $5; next }
        $2 == 7 && ++n == 2 { $2 = 8 } { print }' | tac
}
like_one() { # NAME TEXT SHEET
    sed "$alike" "$2" >"$work/case.txt"
    of_one "$3" >"$work/expected"
    told "clocks alike: $1" 0 "$(cat "$work/expected")" "" sh -c "$job route $work/missing $player $work/case.txt | grep -v '^#'"
}
for text in examples/detour.txt examples/twice.txt $here/wide.txt $here/fits.txt; do
    tools/route "$text" >"$own"
    like_one "$text" "$text" "$own"
done
met=0
while read -r hex; do
    printf '%b' "$(echo "$hex" | sed 's/../\\x&/g')" >"$work/sample"
    $job read "$work/sample" >"$work/text" 2>/dev/null || continue
    $printer <"$work/sample" >"$own"
    case $(head -n 1 "$own") in
    "route 0 "*) continue ;;
    route*) like_one "$hex" "$work/text" "$own" && met=$((met + 1)) ;;
    none) none_crossed "clocks alike, none: $hex" "$work/text" "$alike" ;;
    esac
done < <(target/brute/brute sample 150 5)
checks=$((checks + 1))
[ $met -gt 20 ] || fail "only $met random jobs between clocks that are alike"
sed "$alike" $here/long.txt >"$work/case.txt"
told "1,026 visits between two clocks" 3 "refused 8" "case.txt: the best route has more than 1024 visits, and the program prints at most so many (refusal 8)" \
    tools/route "$work/case.txt"
