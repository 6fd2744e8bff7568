# Texts with two clocks: the tool's messages, what it asks the session player, and what it shows of its line. The player
# is one that says a line, so that nothing here depends on the planner; crossing.sh asks the real one. It uses what
# lost.sh and verdict.sh have set up.

two=examples/two_clocks.txt
two_line() { grep -n -m 1 "$1" $two | cut -d: -f1; } # PATTERN
two_edited() { sed "$1" $two >"$work/bad.txt"; }      # SED

# ---- the text
two_message() { # MESSAGE SED
    two_edited "$2"
    told "$two with '$2'" 2 "" "bad.txt:$1" $job check "$work/bad.txt"
}
told "a text with two clocks" 0 "" "" $job check $two
told "a text with one clock" 0 "" "" $job check examples/strip.txt
told "a text on standard input" 0 "" "" sh -c "$job check <$two"
clocks=$(two_line '^clocks')
fifo=$(two_line '^fifo')
instead="clocks stands in place of period"
two_message "$((clocks + 1)): period is given, and clocks already in line $clocks; $instead" 's/^clocks.*/&\nperiod 55/'
two_message "$((clocks + 1)): clocks is given, and period already in line $clocks; $instead" 's/^clocks.*/period 55\n&/'
two_message "$((fifo + 1)): period is given, and clocks already in line $clocks; $instead" 's/^fifo.*/&\nperiod 55/; s/^limit.*//'
two_message "$clocks: clocks needs the line 'fifo', which the text does not have" 's/^fifo.*//'
two_message "$fifo: fifo needs the line 'clocks', which the text does not have" 's/^clocks.*//'
two_message "$fifo: fifo needs the line 'clocks', which the text does not have" 's/^clocks.*/period 55/'
two_message "$(wc -l <$two): the text ends without the line 'period'" 's/^clocks.*//; s/^fifo.*//'
two_message "$(wc -l <$two): the text ends without the line 'limit'" 's/^limit.*//'
two_message "$((clocks + 1)): clocks is given already in line $clocks" 's/^clocks.*/&\n&/'
two_message "$((fifo + 1)): fifo is given already in line $fifo" 's/^fifo.*/&\n&/'
for words in "" " 55" " 55 75 75"; do
    two_message "$clocks: the form is: clocks SOURCE-PERIOD SINK-PERIOD" "s/^clocks.*/clocks$words/"
done
two_message "$clocks: '7x' is not a whole number" 's/^clocks.*/clocks 55 7x/'
two_message "$clocks: 65536 is above 65535, the largest number taken" 's/^clocks.*/clocks 65536 7x/'
form="the form is: R NUMBER K NUMBER C NUMBER setup NUMBER"
two_message "$fifo: setup is missing; $form" 's/ setup 9//'
two_message "$fifo: 'T' is not expected here; $form" 's/^fifo R/fifo T/'
two_message "$fifo: K is given twice" 's/^fifo R/fifo K/'

# ---- what two clocks do not have
told "a job of two clocks" 2 "" "$two:$clocks: a net between two clocks has no job; tools/route takes its text" $job write $two
told "a job of two clocks, from standard input" 2 "" "standard input:$clocks: a net between two clocks has no job; tools/route takes its text" \
    sh -c "$job write <$two"
no_verdict="$two:$clocks: a net between two clocks has no verdict, which is for one clock"
told "a verdict between two clocks" 2 "" "$no_verdict" tools/verdict $two examples/detour.sheet
told "a script for it" 2 "" "$no_verdict" $job script $two examples/detour.sheet
told "no sheet is read for it" 2 "" "$no_verdict" $job verdict "$work/missing" $two "$work/missing.sheet"

# ---- a player that says a line
cat >"$work/cross.txt" <<'TEXT'
row . t t t .
source 0 0
sink 0 4
clocks 13 26
fifo R 1 K 2 C 1 setup 2
limit 63
register R 1 K 2 C 1 setup 1
horizontal R 2 C 3
vertical R 2 C 3
TEXT
cross=$work/cross.txt
plays() { # SCRIPT
    printf '#!/bin/sh\n%s\n' "$1" >"$work/program"
    chmod +x "$work/program"
}
line_told() { # NAME STATUS OUTPUT MESSAGE LINE TEXT DRAWINGS..: the route printer is not there, and not asked
    local name=$1 status=$2 output=$3 message=$4 text=$6
    plays "echo '$5'"
    shift 6
    told "$name" "$status" "$output" "$message" $job route "$work/missing" "$work/program" "$text" "$@"
}
found="crossing 0 depth 0 figures 1 0 4 52 0 visits 4 7 3 0 2 8 1 7 0 7 zeroed 2560"
sheet=$(guide 'crossing 1 0 4 52 0')
line_told "the guide's strip" 0 "$sheet" "" "$found" "$cross"
same "the guide's strip is the strip with these lines" "" "$(guide 'row . t t t' | grep -vxFf "$cross")"
plays "tee '$work/script' >/dev/null; echo '$found'"
told "the strip's question" 0 "$sheet" "" $job route "$work/missing" "$work/program" "$cross"
same "the script of the strip's question" "plan 5 0 2 2 2 0
tables 1 2 1 1 2 3 2 3 26 0 63
buffers 0
clocks 13 1 2 1 2
crossing 5 1 0 4 2048" "$(cat "$work/script")"
no_reason="why there is no route is told of one clock only"
plays "tee '$work/script' >/dev/null; echo 'crossing 7 depth 0 figures 0 0 0 0 0 visits zeroed 30720'"
told "the example's question" 1 none "$two: $no_reason" $job route "$work/missing" "$work/program" $two
same "the script of the example's question" "plan 60 0 0 0 2 0 0 2 0 0 0 0 0 0 0 1 1 5 0 0 0 1 1 2 0 0 0 1 2 5 0 2 0 1 3 1 0 0 0 1 1 5 0 0 0 1 1 1 0 0 0 0 2 0 0 0 0 0 0 2 0
tables 3 8 2 4 1 2 1 2 75 0 20
buffers 2 3 4 1 1 7 3
clocks 55 2 14 3 9
crossing 12 5 24 35 2048" "$(cat "$work/script")"
sed 's/^row.*//; s/^source.*/size 40 40\nsource 0/; s/^sink.*/sink 1/; s/^clocks.*/clocks 65535 65535/' $two >"$work/bad.txt"
told "the question of a plan that is too large" 1 none "bad.txt: $no_reason" $job route "$work/missing" "$work/program" "$work/bad.txt"
same "its plan is cut, its numbers are not" "plan 1100; clocks 65535 2 14 3 9; crossing 40 40 0 1 2048" \
    "$(awk '$1 == "plan" { print $1, $2 } $1 == "clocks" || $1 == "crossing"' "$work/script" | paste -s -d ';' | sed 's/;/; /g')"

# ---- sheets: each span by its own clock
cross_head="# from code   to code  steps  gates     2T  delay  spare  (half-ticks; 2T ="
sed 's/^clocks.*/clocks 13 100/' $cross >"$work/clocks.txt"
line_told "a FIFO next to the source" 0 "crossing 0 0 4 113 0
4 7
3 0
2 0
1 8
0 7
$cross_head 26 source, 200 sink)
#    1    8    4    7      3      0    200     92    108
#    0    7    1    8      1      0     26     26      0" "" \
    "crossing 0 depth 0 figures 0 0 4 113 0 visits 4 7 3 0 2 0 1 8 0 7 zeroed 2560" "$work/clocks.txt"
sed 's/^clocks.*/clocks 40 13/' $cross >"$work/clocks.txt"
line_told "a register on the sink's side" 0 "crossing 0 1 4 66 2
4 7
3 7
2 8
1 0
0 7
$cross_head 80 source, 26 sink)
#    3    7    4    7      1      0     26     24      2
#    2    8    3    7      1      0     26     24      2
#    0    7    2    8      2      0     80     54     26" "" \
    "crossing 0 depth 0 figures 0 1 4 66 2 visits 4 7 3 7 2 8 1 0 0 7 zeroed 2560" "$work/clocks.txt"

# twice the skew is taken off on both sides
sed 's/^clocks.*/clocks 15 28\nskew 2/' $cross >"$work/clocks.txt"
line_told "a skew" 0 "crossing 1 0 4 58 0
4 7
3 0
2 8
1 7
0 7
$cross_head 30 source, 56 sink, twice the skew 4)
#    2    8    4    7      2      0     56     52      0
#    1    7    2    8      1      0     30     26      0
#    0    7    1    7      1      0     30     24      2" "" \
    "crossing 0 depth 0 figures 1 0 4 58 0 visits 4 7 3 0 2 8 1 7 0 7 zeroed 2560" "$work/clocks.txt"
plays "tee '$work/script' >/dev/null; echo '$found'"
told "the question with a skew" 4 "" "program: its route does not fit the plan: its first line says registers 1 0, latency 52" \
    $job route "$work/missing" "$work/program" "$work/clocks.txt"
same "its tables" "tables 1 2 1 1 2 3 2 3 28 2 63" "$(grep '^tables' "$work/script")"

# ---- pictures and drawings
own_line="crossing 0 depth 0 figures 1 1 15 260 4 visits $(sed 1d $here/two_clocks.sheet | grep -v '^#' | paste -s -d ' ') zeroed 30720"
line_told "the example" 0 "$(cat $here/two_clocks.sheet)" "" "$own_line" $two
same "the spans of $two in examples/README.md" "$(grep '^#' $here/two_clocks.sheet)" "$(format '2T = 110 source')"
rm -f "$work/drawing.svg"
line_told "the picture of two clocks" 0 "$(cat $here/two_clocks.sheet <(echo) $here/two_clocks.picture)" "" "$own_line" $two \
    --picture --svg "$work/drawing.svg"
drawn() { python3 $here/drawing.py "$work/drawing.svg" 2>&1; }
same "the drawing of two clocks" "16 visits, 16 points, 8 taps, 16 blocked, 3 cuts, 1 FIFOs" "$(drawn)"
title "$two: registers 1 on the source's side, 1 on the sink's, steps 15, latency 260 ticks, spare 4 half-ticks"
same "FIFOs in its legend" 1 "$(grep -c '>FIFO</text>' "$work/drawing.svg")"
none_line="crossing 7 depth 0 figures 0 0 0 0 0 visits zeroed 30720"
none_line="crossing 7 depth 0 figures 0 0 0 0 0 visits zeroed 2560"
legend=$(tail -n 2 $here/two_clocks.picture)
rm -f "$work/drawing.svg"
line_told "the picture of none between two clocks" 1 "none

row cell  0     1     2     3     4
  0    0 S.  -  t  -  t  -  t  - K.

$legend" "cross.txt: $no_reason" "$none_line" "$cross" --picture --svg "$work/drawing.svg"
same "the drawing of none between two clocks" "0 visits, 0 points, 3 taps, 0 blocked, 0 cuts, 0 FIFOs" "$(drawn)"
title "$cross: no legal route"
sed 's/^clocks.*/clocks 100 100/' "$cross" >"$work/clocks.txt"
rm -f "$work/drawing.svg"
line_told "the FIFO's cell passed again, with a register" 0 "crossing 1 0 6 300 146
4 7
3 0
2 8
1 0
2 7
1 0
0 7
$cross_head 200 source, 200 sink)
#    2    8    4    7      2      0    200     52    148
#    2    7    2    8      2      0    200     54    146
#    0    7    2    7      2      0    200     52    148

row cell  0     1     2     3     4
  0    0 S. ==>+t <=>*t ==>+t ==>K.

$legend
cell 1 (row 0, column 1) is passed 2 times: visits 3, 5 from the sink
cell 2 (row 0, column 2) is passed 2 times: visits 2 (FIFO), 4 (register) from the sink" "" \
    "crossing 0 depth 0 figures 1 0 6 300 146 visits 4 7 3 0 2 8 1 0 2 7 1 0 0 7 zeroed 2560" "$work/clocks.txt" \
    --picture --svg "$work/drawing.svg"
same "its drawing" "7 visits, 7 points, 3 taps, 0 blocked, 0 cuts, 1 FIFOs" "$(drawn)"
same "a FIFO in a legend of one clock" 0 "$(cat $here/{detour,twice,none,wide,fits}.picture | grep -c FIFO)"

# ---- refusals: the element by its place in this call's order
line_refused() { # NAME NUMBER LINE: REASON, WORDS SED: the player's line after its name, the strip with a change
    sed "$5" "$cross" >"$work/bad.txt"
    rm -f "$work/drawing.svg"
    line_told "$1, refused" 3 "refused $2" "bad.txt:$3 (refusal $2)" "crossing $2 depth 0$4 figures 0 0 0 0 0 visits zeroed 0" \
        "$work/bad.txt" --picture --svg "$work/drawing.svg"
    [ ! -e "$work/drawing.svg" ] || fail "$1: a refused text has a drawing"
}
all='s/^clocks.*/clocks 0 0/; s/^limit.*/limit 64/; s/ R [0-9]*/ R 256/; $a buffer R 256 K 0 C 0\nskew 30001'
seven='$a buffer R 0 K 0 C 0\nbuffer R 0 K 0 C 0\nbuffer R 0 K 0 C 0\nbuffer R 0 K 0 C 0\nbuffer R 0 K 0 C 0\nbuffer R 0 K 0 C 0\nbuffer R 0 K 0 C 0'
line_refused "the source's period" 4 "4: source period 0 is outside 1 to 30000" " fault 1" "$all"
line_refused "the sink's period" 4 "4: sink period 0 is outside 1 to 30000" " fault 2" "$all"
line_refused "the skew" 4 "11: skew 30001 is outside 0 to 30000" " fault 3" "$all"
line_refused "the load limit" 4 "6: limit 64 is outside 0 to 63" " fault 4" "$all"
line_refused "the horizontal wire" 4 "8: horizontal R 256 is outside 0 to 255" " fault 5" "$all"
line_refused "the vertical wire" 4 "9: vertical R 256 is outside 0 to 255" " fault 6" "$all"
line_refused "the register" 4 "7: register R 256 is outside 0 to 255" " fault 7" "$all"
line_refused "the FIFO" 4 "5: fifo R 256 is outside 0 to 255" " fault 8" "$all"
line_refused "seven buffers" 4 "16: 7 buffers are given, and at most 6 are taken" " fault 9" "$seven"
line_refused "a buffer" 4 "10: buffer 1 R 256 is outside 0 to 255" " fault 10 1" "$all"
line_refused "a FIFO's setup" 4 "5: fifo setup 30001 is outside 0 to 30000" " fault 8" 's/ setup 2/ setup 30001/'
line_refused "an element for which the text shows no reason" 4 " a number is outside its range" " fault 8" ''
line_refused "a plan's side" 1 "2: the plan's width is 0 and its height 9; $sides" "" 's/^row.*//; s/^source.*/size 0 9\nsource 0/; s/^sink.*/sink 1/'
line_refused "a mark" 3 "1: cell 0 (row 0, column 0) has marks 16, outside 0 to 15" "" 's/^row \./row 16/'
line_refused "the ends" 5 "3: source and sink are both cell 0 (row 0, column 0)" "" 's/^sink.*/sink 0/'
line_told "more visits than there is room for, refused" 3 "refused 8" \
    "cross.txt: the best route has more than 1024 visits, and the program prints at most so many (refusal 8)" \
    "crossing 8 depth 0 figures 1 0 4 52 0 visits zeroed 2560" "$cross"

# ---- a player that fails, prints something else, or tells a route that does not fit
as_crossing() { # NAME MESSAGE SCRIPT
    plays "$3"
    told "$1, between two clocks" 4 "" "program: $2" $job route "$work/missing" "$work/program" "$cross" --picture --svg "$work/missing/a.svg"
}
told "a missing player" 4 "" "missing: No such file or directory (os error 2)" $job route "$work/program" "$work/missing" "$cross"
as_crossing "a program that prints nothing" "it printed no answer, but ''" ""
as_crossing "a program that fails" "it ended with exit status: 7" "exit 7"
as_crossing "a program that complains" "it says: session_player: standard output: No space left on device" \
    "echo session_player: standard output: No space left on device >&2"
as_crossing "bytes" "what it printed is no text" "printf '\\377\\n'"
as_crossing "a line without its end" "it printed no answer, but '${none_line:0:40}..'" "printf '$none_line'"
as_crossing "two lines" "it printed no answer, but '${none_line:0:40}..'" "echo '$none_line'; echo '$none_line'"
no_line() { # LINE..: neither a route nor a refusal
    local line shown
    for line in "$@"; do
        shown=$line
        [ ${#line} -le 40 ] || shown=${line:0:40}..
        as_crossing "'$line'" "it printed no answer, but '$shown'" "echo '$line'"
    done
}
no_line "none" "bad script: line 4: this word is no command" "route 0 depth 0 figures 0 0 4 0 visits zeroed 0" \
    "crossing 0 depth 0" "${found/depth 0/depth 1}" "${found/52 0/52}" "${found/52 0/52 0 0}" "${found/52 0/52 -1}" \
    "${found/52 0/52 00}" "${found/1 0 4/1 x 4}" "${found/ 0 7 zeroed/ 0 zeroed}" "${found/zeroed 2560/zeroed}" \
    "${found/zeroed 2560/zeroed x}" "${found/ zeroed 2560/}" "${found/visits/words}" "${found/ 0 / 00 }" \
    "${found/figures/fault 1 figures}" "${found/crossing 0/crossing 7}" "${found/crossing 0/crossing 8}" \
    "${none_line/7 depth 0/7 depth 0 fault 1}" "${none_line/7 depth 0/4 depth 0}" "${none_line/7 depth 0/4 depth 0 fault}" \
    "${none_line/7 depth 0/4 depth 0 fault x}" "${none_line/7 depth 0/4 depth 0 fault 9 1}" \
    "${none_line/7 depth 0/4 depth 0 fault 10 x}" "${none_line/7 depth 0/5 depth 0 fault 1}"
for words in "2 depth 0" "6 depth 0" "15 depth 0" "16 depth 0" "19 depth 0" "4 depth 0 fault 0" "4 depth 0 fault 11"; do
    line="crossing $words figures 0 0 0 0 0 visits zeroed 0"
    as_crossing "the refusal '$words'" "the text cannot be refused with '${line:0:40}..'" "echo '$line'"
done
no_fit() { # NAME MESSAGE LINE
    as_crossing "$1" "its route does not fit the plan: $2" "echo '$3'"
}
no_fit "no visit" "it has no visit" "${found/ 4 7 3 0 2 8 1 7 0 7/}"
no_fit "other steps" "it says 5 steps and has 5 visits" "${found/ 4 52/ 5 52}"
no_fit "a cell outside the plan" "it visits cell 5, which is not in the plan" "${found/4 7 3 0/5 7 3 0}"
no_fit "a code that there is not" "it has the gate code 9" "${found/2 8/2 9}"
no_fit "a buffer that there is not" "it has the gate code 1" "${found/3 0/3 1}"
no_fit "cells that are not joined" "no wire joins its cells 4 and 2" "${found/4 7 3 0 2 8 1 7/4 7 2 8 1 7 2 0}"
no_fit "another source" "it does not lead from the sink to the source" "${found/1 7 0 7/3 7 4 7}"
no_fit "a FIFO at the sink" "it does not lead from the sink to the source" "${found/4 7 3/4 8 3}"
no_fit "a FIFO at the source" "it does not lead from the sink to the source" "${found/ 0 7 z/ 0 8 z}"
no_fit "no FIFO" "it has 0 FIFOs" "${found/2 8/2 7}"
no_fit "two FIFOs" "it has 2 FIFOs" "${found/1 7/1 8}"
no_fit "registers of the other side" "its first line says registers 0 1, latency 52" "${found/s 1 0/s 0 1}"
no_fit "the FIFO counted as a register" "its first line says registers 1 1, latency 52" "${found/s 1 0/s 1 1}"
no_fit "the sink's period twice" "its first line says registers 1 0, latency 65" "${found/ 52 / 65 }"
no_fit "another spare figure" "its first line says spare 1, and its spans have 0" "${found/52 0/52 1}"
cp "$cross" "$work/kept.txt"
sed 's/^clocks.*/clocks 12 27/' "$work/kept.txt" >"$cross"
no_fit "a span that is too long for the source's period" "its first line says spare 0, and its spans have -2" "${found/ 52 0/ 51 0}"
cp "$work/kept.txt" "$cross"

# ---- output that cannot be written
plays "echo '$found'"
told "a route between two clocks on a full disk" 4 "" "standard output: $full (os error 28)" \
    onto_full $job route "$work/missing" "$work/program" "$cross"
told "its drawing on a full disk" 4 "$sheet" "/dev/full: $full (os error 28)" $job route "$work/missing" "$work/program" "$cross" --svg /dev/full
plays "echo '$none_line'"
told "none between two clocks on a full disk" 4 "" "standard output: $full (os error 28)" \
    onto_full $job route "$work/missing" "$work/program" "$cross"
