# tools/verdict: every fault in words, every refusal that a text can meet, its statuses, and a program that fails. It uses
# what refusals.sh, route.sh and lost.sh have set up.

usage="usage: tools/verdict PLAN SHEET"
told "tools/verdict without files" 2 "" "$usage" tools/verdict
told "tools/verdict with one file" 2 "" "$usage" tools/verdict examples/detour.txt
told "tools/verdict with three files" 2 "" "$usage" tools/verdict a b c
told "an option of tools/verdict that there is not" 2 "" "tools/verdict: '--picture' is not an option
$usage" tools/verdict --picture examples/detour.txt examples/detour.sheet
same "the help's first line of tools/verdict" "$usage" "$(tools/verdict --help | head -n 1)"
same "the version of tools/verdict" "tools/verdict $(cat tools/VERSION)" "$(tools/verdict --version | cut -d, -f1)"

# ---- the planner's own answers are accepted
accepts() { # NAME WORDS PLAN SHEET
    told "$1" 0 "accepted: $2" "" tools/verdict "$3" "$4"
}
own() { # WORDS PLAN
    tools/route "$2" >"$work/own.sheet"
    accepts "the planner's own sheet of $2" "$1" "$2" "$work/own.sheet"
}
told "the guide's sheet" 0 "$(guide accepted:)" "" tools/verdict examples/detour.txt examples/detour.sheet
own "22 visits, 2 registers, 0 half-ticks spare" examples/detour.txt
own "3 visits, 0 registers, 0 half-ticks spare" examples/strip.txt
own "3 visits, 1 register, 26 half-ticks spare" examples/skewed.txt
own "5 visits, 1 register, 0 half-ticks spare" examples/twice.txt
own "38 visits, 4 registers, 1 half-tick spare" $here/wide.txt
own "1024 visits, 5 registers, 0 half-ticks spare" $here/fits.txt
sheet_piped() { tools/verdict examples/detour.txt - <examples/detour.sheet; }
told "a sheet on standard input" 0 "accepted: 22 visits, 2 registers, 0 half-ticks spare" "" sheet_piped
plan_piped() { tools/verdict - examples/detour.sheet <examples/detour.txt; }
told "a plan on standard input" 0 "accepted: 22 visits, 2 registers, 0 half-ticks spare" "" plan_piped
from_there() { (cd examples && ../tools/verdict detour.txt <(cat detour.sheet)); }
told "a sheet from a pipe, in another folder" 0 "accepted: 22 visits, 2 registers, 0 half-ticks spare" "" from_there
also() { # NAME SED: the sheet of the example with a change, accepted
    sed "$2" examples/detour.sheet >"$work/bad.sheet"
    accepts "$1" "22 visits, 2 registers, 0 half-ticks spare" examples/detour.txt "$work/bad.sheet"
}
also "other figures, lines that end with both characters" '1s/.*/route 0 99 4000000000 60000/; s/$/\r/'
also "a sheet of before, without the spare figure" '1s/.*/route 2 21 375/'
also "a spare figure below zero" '1s/.*/route 2 21 375 -1000000000/'
also "comments before the first line" '1s/^/# drawn by hand\n#\n/'
also "comments between the visits" 's/$/\n# 9 9/'
also "a comment without the last line's end, characters of other alphabets" '$s/$/\n# \xc2\xb5m/'
printf 'route 0 1 125\n1 7\n0 7' >"$work/short.sheet"
sed 's/^row.*//; s/^source.*/size 32 32\nsource 0/; s/^sink.*/sink 1/' examples/detour.txt >"$work/large.txt"
accepts "a plan of 32 by 32, no end of the last line" "2 visits, 0 registers, 184 half-ticks spare" "$work/large.txt" "$work/short.sheet"
sed 's/^row.*/row . ./; s/^sink.*/sink 1/; s/^horizontal.*/horizontal R 0 C 0/' examples/strip.txt >"$work/free.txt"
back_and_forth() { # PAIRS
    echo "route 0 0 0 0"
    echo "1 7"
    yes "0 0
1 0" | head -n $((2 * $1))
    echo "0 7"
}
back_and_forth 2047 >"$work/full.sheet"
accepts "4,096 visits" "4096 visits, 0 registers, 44 half-ticks spare" "$work/free.txt" "$work/full.sheet"
sed 's/^[1-9].*/&\n# half of all/' "$work/full.sheet" >"$work/bad.sheet"
accepts "4,096 visits, and comments" "4096 visits, 0 registers, 44 half-ticks spare" "$work/free.txt" "$work/bad.sheet"

# ---- faults
strip() { # SED: the strip with a change
    sed "$1" examples/strip.txt >"$work/bad.txt"
}
fault() { # WORDS PLAN SED: the sheet of the example with a change, or the strip's three visits
    sed "$3" "$sheet" >"$work/bad.sheet"
    told "$2 with the sheet's '$3'" 1 "$1" "" tools/verdict "$2" "$work/bad.sheet"
}
sheet=examples/detour.sheet
plan=examples/detour.txt
fault "visit 0 (cell 62, code 7): the first visit is not the sink, cell 63" $plan 's/^63 /62 /'
fault "visit 0 (cell 65535, code 7): outside the plan, whose cells are 0 to 127" $plan 's/^63 /65535 /'
fault "visit 5 (cell 128, code 2): outside the plan, whose cells are 0 to 127" $plan 's/^13 /128 /'
fault "visit 21 (cell 49, code 7): the last visit is not the source, cell 48" $plan 's/^48 /49 /'
fault "visit 4 (cell 13, code 2): no uncut wire from cell 15" $plan '/^14 /d'
fault "visit 2 (cell 47, code 0): no uncut wire from cell 47" $plan 's/^47 .*/&\n&/'
fault "visit 14 (cell 21, code 0): no uncut wire from cell 5" $plan 's/^4 /21 /'
fault "visit 0 (cell 63, code 0): an end must have code 7" $plan 's/^63 7/63 0/'
fault "visit 21 (cell 48, code 1): an end must have code 7" $plan 's/^48 7/48 1/'
fault "visit 2 (cell 63, code 7): no gate may stand on an end's cell in between" $plan 's/^47 .*/&\n63 7\n&/'
fault "visit 21 (cell 48, code 9): no gate may stand on an end's cell in between" $plan 's/^32 1/32 0\n48 9\n&/'
fault "visit 5 (cell 13, code 8): no such code; the largest is 7, a register" $plan 's/^13 2/13 8/'
fault "visit 5 (cell 13, code 3): no such buffer in the tables, which have 2" $plan 's/^13 2/13 3/'
fault "$(guide 'visit 4')" $plan 's/^14 0/14 7/'
fault "visit 12 (cell 6, code 0): the load is more than the limit, 24" $plan 's/^13 2/13 0/; s/^11 7/11 0/; s/^8 1/8 0/'
printf 'route 0 2 26 0\n2 7\n1 0\n0 7\n' >"$work/strip.sheet"
sheet=$work/strip.sheet
plan=$work/bad.txt
strip 's/^period.*/period 25/'
fault "$(guide 'visit 2')" "$plan" ''
strip 's/^period.*/period 11/'
fault "visit 1 (cell 1, code 7): the span that closes here is 2 half-ticks too long for the period, 11 ticks" "$plan" 's/^1 0/1 7/'
strip 's/^period.*/period 1/'
fault "visit 2 (cell 0, code 7): the span that closes here is 50 half-ticks too long for the period, 1 tick" "$plan" ''
sed 's/^1 0/1 7/' "$work/strip.sheet" >"$work/two.sheet"
# twice the skew at each close
told "the strip with skew 1" 1 "visit 2 (cell 0, code 7): the span that closes here is 2 half-ticks too long for the period, 26 ticks, less the skew, 1 tick" "" \
    tools/verdict examples/skewed.txt "$work/strip.sheet"
accepts "its register with skew 1" "3 visits, 1 register, 26 half-ticks spare" examples/skewed.txt "$work/two.sheet"
strip 's/^period.*/period 27\nskew 1/'
accepts "a tick more with skew 1" "3 visits, 0 registers, 0 half-ticks spare" "$plan" "$work/strip.sheet"
strip 's/^period.*/period 26\nskew 14/'
accepts "skew 14 and no more" "3 visits, 1 register, 0 half-ticks spare" "$plan" "$work/two.sheet"
strip 's/^period.*/period 26\nskew 15/'
told "skew 15" 1 "visit 1 (cell 1, code 7): the span that closes here is 2 half-ticks too long for the period, 26 ticks, less the skew, 15 ticks" "" \
    tools/verdict "$plan" "$work/two.sheet"
strip 's/^period.*/period 1\nskew 30000/'
told "T 1, skew 30,000" 1 "visit 1 (cell 1, code 7): the span that closes here is 60022 half-ticks too long for the period, 1 tick, less the skew, 30000 ticks" "" \
    tools/verdict "$plan" "$work/two.sheet"
strip 's/^period.*/period 6/; s/^horizontal.*/horizontal R 1 C 1/'
told "a miss of 1 half-tick" 1 "visit 1 (cell 1, code 7): the span that closes here is 1 half-tick too long for the period, 6 ticks" "" \
    tools/verdict "$plan" "$work/two.sheet"
strip 's/^period.*/period 7/; s/^horizontal.*/horizontal R 1 C 1/'
accepts "1 half-tick to spare" "3 visits, 1 register, 1 half-tick spare" "$plan" "$work/two.sheet"
strip 's/^period.*/period 25/'
accepts "the guide's strip with a register" "3 visits, 1 register, 26 half-ticks spare" "$plan" "$work/two.sheet"
strip 's/^period.*/period 26/; s/^register.*/register R 2 K 4 C 1 setup 1/'
fault "visit 2 (cell 0, code 7): the span that closes here is 18 half-ticks too long for the period, 26 ticks" "$plan" ''
# the largest figures that 4,096 visits can have: each step 32,130 half-ticks, each buffer and the close 34,130
cat >"$work/slow.txt" <<'TEXT'
row . . . .
source 0
sink 3
period 1
limit 63
register R 255 K 1000 C 63 setup 30000
horizontal R 255 C 0
vertical R 0 C 0
buffer R 255 K 1000 C 63
TEXT
{ printf 'route 0 0 0\n3 7\n'; yes "2 1
1 1" | head -n 4094; echo "0 7"; } >"$work/slow.sheet"
told "the largest miss of a sheet" 1 "visit 4095 (cell 0, code 7): the span that closes here is 271394698 half-ticks too long for the period, 1 tick" "" \
    tools/verdict "$work/slow.txt" "$work/slow.sheet"
strip 's/^limit.*/limit 0/'
fault "visit 0 (cell 2, code 7): the load is more than the limit, 0" "$plan" ''
strip 's/^row.*/row . xt .\nbuffer R 1 K 1 C 1/'
fault "visit 1 (cell 1, code 1): blocked, no gate may stand here" "$plan" 's/^1 0/1 1/'
fault "visit 1 (cell 1, code 7): blocked, no gate may stand here" "$plan" 's/^1 0/1 7/'
fault "visit 1 (cell 1, code 2): no such buffer in the tables, which have 1" "$plan" 's/^1 0/1 2/'
accepts "a visit without a gate on a blocked tap" "3 visits, 0 registers, 0 half-ticks spare" "$plan" "$work/strip.sheet"
strip 's/^row.*/row . x ./'
fault "visit 1 (cell 1, code 7): no clock tap here" "$plan" 's/^1 0/1 7/'
strip 's/^row.*/row xt t xt/'
accepts "ends on blocked taps" "3 visits, 1 register, 28 half-ticks spare" "$plan" "$work/two.sheet"
strip 's/^row.*/row . .| .\nrow . . .\nsize 3 2/'
fault "visit 1 (cell 1, code 0): no uncut wire from cell 2" "$plan" ''
fault "visit 1 (cell 3, code 0): no uncut wire from cell 2" "$plan" 's/^1 0/3 0/'

# ---- refusals: the program's number, and the reason with its line in the text
refuse_plan() { # NUMBER LINE: REASON, SED
    edited "$3"
    told "the example with '$3', to be judged" 3 "refused $1" "bad.txt:$2 (refusal $1)" tools/verdict "$work/bad.txt" examples/detour.sheet
}
seven='s/^buffer R 3 .*/&\n&\n&\n&\n&\n&/'
refuse_plan 1 "$(line '# row 0'): the plan's width is 48 and its height 8; $sides" 's/^row  *\([^#]*\)#.*/row \1 \1 \1/'
refuse_plan 1 "$(line '^source'): the plan's width is 60 and its height 60; $sides" 's/^row.*//; s/^source.*/size 60 60\nsource 0/; s/^sink.*/sink 1/'
refuse_plan 1 "$(line '^source'): the plan's width is 0 and its height 9; $sides" 's/^row.*//; s/^source.*/size 0 9\nsource 0/; s/^sink.*/sink 1/; s/^limit.*/limit 64/'
refuse_plan 3 "$(line '# row 0'): cell 0 (row 0, column 0) has marks 300, outside 0 to 15" '0,/^row *\./s//row 300/'
refuse_plan 3 "$(line '# row 7'): cell 127 (row 7, column 15) cuts the wire below, and the last row has none" "s/^\(row .*\)\.\( *# row 7\)/\1._\2/; $seven"
refuse_plan 4 "$(line '^period'): period 0 is outside 1 to 30000" "s/^period .*/period 0/; $seven"
refuse_plan 4 "$(line '^limit'): limit 64 is outside 0 to 63" "s/^limit .*/limit 64/; $seven"
refuse_plan 4 "$(line '^limit'): skew 30001 is outside 0 to 30000" "s/^limit .*/skew 30001\nlimit 64/; $seven"
refuse_plan 4 "$(line '^period'): period 0 is outside 1 to 30000" "s/^period .*/period 0/; s/^limit .*/skew 30001\nlimit 64/"
refuse_plan 4 "$(line '^horizontal'): horizontal R 256 is outside 0 to 255" 's/^horizontal R 1 /horizontal R 256 /; s/^vertical R 2 /vertical R 256 /'
refuse_plan 4 "$(line '^vertical'): vertical C 64 is outside 0 to 63" 's/^vertical R 2 C 2/vertical C 64 R 2/; s/ setup 6/ setup 30001/'
refuse_plan 4 "$(line '^register'): register setup 30001 is outside 0 to 30000" "s/ setup 6/ setup 30001/; $seven"
refuse_plan 4 "$(($(line '^buffer R 3') + 6)): 7 buffers are given, and at most 6 are taken" "$seven; s/^buffer R 1/buffer R 256/"
refuse_plan 4 "$(($(line '^buffer R 3') + 6)): 37 buffers are given, and at most 6 are taken" "$seven; $seven; s/^sink.*/sink 128/"
refuse_plan 4 "$(line '^buffer R 1'): buffer 2 K 1001 is outside 0 to 1000" 's/^buffer R 1 K 9/buffer R 1 K 1001/; s/^sink.*/sink 128/'
refuse_plan 5 "$(line '^sink'): sink 128 is not in the plan, whose cells are 0 to 127" 's/^sink.*/sink 128/'
refuse_plan 5 "$(line '^sink'): source and sink are both cell 48 (row 3, column 0)" 's/^sink.*/sink 3 0/'
head -n 2 examples/detour.sheet >"$work/bad.sheet"
told "a sheet of one visit" 3 "refused 17" "bad.sheet: a sheet needs two visits or more (refusal 17)" tools/verdict examples/detour.txt "$work/bad.sheet"
head -n 1 examples/detour.sheet >"$work/bad.sheet"
told "a sheet of no visit" 3 "refused 17" "bad.sheet: a sheet needs two visits or more (refusal 17)" tools/verdict examples/detour.txt "$work/bad.sheet"
edited 's/^sink.*/sink 128/'
told "a sheet of no visit, and a sink outside" 3 "refused 5" "bad.txt:$(line '^sink'): sink 128 is not in the plan, whose cells are 0 to 127 (refusal 5)" \
    tools/verdict "$work/bad.txt" "$work/bad.sheet"

# ---- texts that are no sheet
no_sheet() { # MESSAGE SED
    sed "$2" examples/detour.sheet >"$work/bad.sheet"
    told "the sheet with '$2'" 2 "" "bad.sheet:$1" tools/verdict examples/detour.txt "$work/bad.sheet"
}
head_form="is not the first line of a sheet; the form is: route REGISTERS STEPS LATENCY SPARE"
no_sheet "1: 'none' $head_form" '1s/.*/none/'
no_sheet "1: 'refused 5' $head_form" '1s/.*/refused 5/'
no_sheet "1: 'route 2 21' $head_form" '1s/.*/route 2 21/'
no_sheet "1: 'route 2 21 -375' $head_form" '1s/.*/route 2 21 -375/'
no_sheet "1: 'route 2 21 -375 0' $head_form" '1s/.*/route 2 21 -375 0/'
no_sheet "1: 'route 2 21 375 -' $head_form" '1s/.*/route 2 21 375 -/'
no_sheet "1: 'route 2 21 375 --1' $head_form" '1s/.*/route 2 21 375 --1/'
no_sheet "1: 'route 2 21 375 +1' $head_form" '1s/.*/route 2 21 375 +1/'
no_sheet "1: 'route 2 21 375 0 0' $head_form" '1s/.*/route 2 21 375 0 0/'
no_sheet "1: 'route 2 21 375 0 # spare' $head_form" '1s/$/ # spare/'
no_sheet "1: '63 7' $head_form" 1d
no_sheet "1: '' $head_form" d
no_sheet "3: '63 7' $head_form" '1s/.*/# one\n# two/'
no_sheet "23: '' $head_form" 's/^/# /'
no_sheet "6: a visit is two numbers, a cell and a gate code, not 0" '1s/^/# one\n# two\n/; s/^31 0//'
no_sheet "5: 'x' is not a whole number" 's/^47 0/&\n# three/; s/^31 0/31 x/'
no_sheet "4: a visit is two numbers, a cell and a gate code, not 4" 's/^31 0/31 0 # up/'
no_sheet "4: '#' is not a whole number" 's/^31 0/ # up/'
no_sheet "4: a visit is two numbers, a cell and a gate code, not 3" 's/^31 0/31 0 0/'
no_sheet "4: a visit is two numbers, a cell and a gate code, not 0" 's/^31 0//'
no_sheet "4: 'x' is not a whole number" 's/^31 0/31 x/'
no_sheet "4: 65536 is above 65535, the largest number taken" 's/^31 0/65536 0/'
no_sheet "1: the text starts with a byte order mark; save it as UTF-8 without one" '1s/^/\xef\xbb\xbf/'
no_sheet "4: '3\\u{1b}' is not a whole number" 's/^31 0/3\x1b 0/'
back_and_forth 2048 >"$work/bad.sheet"
told "4,098 visits" 2 "" "bad.sheet:4098: the sheet has more than 4096 visits, the most that are judged" tools/verdict "$work/free.txt" "$work/bad.sheet"
told "a sheet for a plan" 2 "" "examples/detour.sheet:1: 'route' is not the name of a line; the names are row, size, register, horizontal, vertical, period, clocks, fifo, skew, limit, source, sink, buffer" \
    tools/verdict examples/detour.sheet examples/detour.txt
told "standard input twice" 2 "" "standard input can be the plan or the sheet, not both" tools/verdict - -
told "a missing sheet" 4 "" "missing.sheet: No such file or directory (os error 2)" tools/verdict examples/detour.txt "$work/missing.sheet"
told "a missing plan" 4 "" "missing.txt: No such file or directory (os error 2)" tools/verdict "$work/missing.txt" examples/detour.sheet
told "a verdict on a full disk" 4 "" "standard output: $full (os error 28)" onto_full tools/verdict examples/detour.txt examples/detour.sheet
told "a fault on a full disk" 4 "" "standard output: $full (os error 28)" onto_full tools/verdict "$plan" "$work/strip.sheet"
closed() { tools/verdict examples/detour.txt examples/detour.sheet >&-; }
told "tools/verdict with its output closed" 4 "" "tools/verdict: standard output is closed" closed
closed_pipe tools/verdict examples/detour.txt examples/detour.sheet

# ---- random sheets: the planner's own are accepted, and every fault of a changed one is shown by the plan
$job script examples/strip.txt "$work/strip.sheet" >"$work/text"
same "the script of the strip" "plan 3 0 2 0
tables 1 2 1 1 2 3 2 3 26 0 63
buffers 0
judge 3 1 0 2 6 2 7 1 0 0 7" "$(cat "$work/text")"
# the longest script: the largest numbers, 4,096 visits, more marks and buffers than it takes
{
    echo "row$(printf ' 65535%.0s' {1..1200})"
    printf '%s 65535\n' source sink period skew limit
    printf '%s R 65535 C 65535\n' horizontal vertical
    echo "register R 65535 K 65535 C 65535 setup 65535"
    yes "buffer R 65535 K 65535 C 65535" | head -n 30
} >"$work/long.txt"
{ echo "route 0 0 0 0"; yes "65535 65535" | head -n 4096; } >"$work/long.sheet"
told "the longest script" 3 "refused 1" "long.txt:1: the plan's width is 1200 and its height 1; $sides (refusal 1)" \
    tools/verdict "$work/long.txt" "$work/long.sheet"
same "the longest script's bytes" 54036 "$($job script "$work/long.txt" "$work/long.sheet" | wc -c)"
counted() { # NUMBER WORD
    [ "$1" = 1 ] && echo "$1 $2" || echo "$1 $2s"
}
faults=
turn=1
while read -r hex; do
    printf '%b' "$(echo "$hex" | sed 's/../\\x&/g')" >"$work/sample"
    $printer <"$work/sample" >"$work/sample.sheet"
    [[ $(head -n 1 "$work/sample.sheet") == route* ]] || continue
    $job read "$work/sample" >"$work/text"
    visits=$(($(wc -l <"$work/sample.sheet") - 1))
    read -r _ registers _ _ slack <"$work/sample.sheet"
    same "the verdict on the route of $hex" "accepted: $visits visits, $(counted "$registers" register), $(counted "$slack" half-tick) spare" \
        "$($job verdict $player "$work/text" "$work/sample.sheet" 2>&1)"
    for change in 's/ .*/ 7/' 's/ .*/ 3/' 's/^/1/' 's/^./0/' d p ',$s/ [1-6]$/ 0/'; do
        sed "$((2 + turn % visits))$change" "$work/sample.sheet" >"$work/bad.sheet"
        turn=$((turn + 7))
        said=$($job verdict $player "$work/text" "$work/bad.sheet" 2>&1)
        status=$?
        checks=$((checks + 1))
        case $status:$visits:$change:$said in
        0:*:accepted:* | 1:*:visit\ * | 3:2:d:refused\ 17*) ;;
        *) fail "the sheet of $hex with '$change': status $status, '$said'" ;;
        esac
        faults="$faults ${said##*: }"
    done
done < <(target/brute/brute sample 90 3)
for words in "outside the plan" "not the sink" "not the source" "no uncut wire" "an end must" "no such buffer" \
    "no clock tap" "blocked" "the load is" "the span that"; do
    checks=$((checks + 1))
    [[ $faults == *"$words"* ]] || fail "no random sheet met '$words'"
done

# ---- what is proved and built, and when: the repository of route.sh with one program
rm "$fake/target/bin/session_player"
printf 'plan:\nsession_player: io plan\n' >"$fake/crates.txt"
cat >"$few/rt" <<END
echo "rt \$* in \${PWD##*/} on '\$(cat)'" >>"$work/calls"
echo "rt: chose --jobs 2 for session_player" >&2
echo "logic=proved functions=1 and more" >&2
cp "$PWD/$player" out/
END
first=session_player
: >"$work/calls"
in_fake() { PATH=$few "$fake/tools/verdict" "$@"; }
printf 'none\n' >"$work/bad.sheet"
told "a bad sheet before the first proof" 2 "" "bad.sheet:1: 'none' $head_form" in_fake "$work/twice.txt" "$work/bad.sheet"
same "proofs before a good sheet" 0 "$(calls)"
tools/route examples/twice.txt >"$work/own.sheet"
log=target/log/tools_verdict.log
wait="proving the planner, 2 parts; this takes several minutes the first time ($log has the prover's lines)"
told "the first verdict" 0 "accepted: 5 visits, 1 register, 0 half-ticks spare" "$wait
[2 of 2] session_player, N s" timed "$work/twice.txt" "$work/own.sheet"
same "the prover's words for a verdict" "rt run in session_player on 'its own input'" "$(cat "$work/calls")"
told "the second verdict" 0 "accepted: 5 visits, 1 register, 0 half-ticks spare" "" in_fake "$work/twice.txt" "$work/own.sheet"
same "proofs for two verdicts" 1 "$(calls)"

# ---- a program that fails, or says what plan and sheet do not show
as_player() { # NAME MESSAGE SCRIPT
    printf '#!/bin/sh\n%s\n' "$3" >"$work/program"
    chmod +x "$work/program"
    told "$1, for a verdict" 4 "" "program: $2" $job verdict "$work/program" examples/strip.txt "$work/strip.sheet"
}
says() { # NAME MESSAGE LINE
    as_player "$1" "$2 '$3'" "echo '$3'"
}
as_player "a program that prints nothing" "it printed no verdict, but ''" ""
as_player "a program that fails" "it ended with exit status: 7" "exit 7"
as_player "a program that cannot write" "it says: session_player: standard output: No space left on device" "exec $PWD/$player >/dev/full"
as_player "a line without its end" "it printed no verdict, but 'judge 0 depth 0 accepted 0'" "printf 'judge 0 depth 0 accepted 0'"
says "a script that is not played" "it printed no verdict, but" "bad script: line 4: a number is missing"
says "a depth" "it printed no verdict, but" "judge 0 depth 1 accepted 0"
says "a verdict without its figure" "it printed no verdict, but" "judge 0 depth 0 accepted"
says "an accepted list that is late" "it printed no verdict, but" "judge 0 depth 0 accepted -1"
says "a period without its figure" "it printed no verdict, but" "judge 0 depth 0 visit 2 period"
says "a period with a word" "it printed no verdict, but" "judge 0 depth 0 visit 2 period -x"
says "a load with a figure" "it printed no verdict, but" "judge 0 depth 0 visit 2 load -1"
says "a fault that there is not" "it printed no verdict, but" "judge 0 depth 0 visit 1 gate"
says "a visit without number" "it printed no verdict, but" "judge 0 depth 0 visit x cell"
refused="the plan and the sheet cannot be refused with"
says "a refusal of other calls" "$refused" "judge 6 depth 0"
says "a plan's wrong length" "$refused" "judge 2 depth 0"
says "an element that there is not" "$refused" "judge 4 depth 0 fault 9"
says "4 without the element" "$refused" "judge 4 depth 0"
shown="plan and sheet do not show the fault of its line"
says "a visit past the last" "$shown" "judge 0 depth 0 visit 3 load"
says "a cell in the plan" "$shown" "judge 0 depth 0 visit 1 cell"
says "the sink" "$shown" "judge 0 depth 0 visit 0 cell"
says "the source" "$shown" "judge 0 depth 0 visit 2 cell"
says "a wire to the first visit" "$shown" "judge 0 depth 0 visit 0 wire"
says "a wire that there is" "$shown" "judge 0 depth 0 visit 1 wire"
says "an end with its code" "$shown" "judge 0 depth 0 visit 2 site"
says "a visit without gate" "$shown" "judge 0 depth 0 visit 1 site"
says "a period at the sink" "$shown" "judge 0 depth 0 visit 0 period -1"
says "a period without register" "$shown" "judge 0 depth 0 visit 1 period -1"
says "a period that is kept" "$shown" "judge 0 depth 0 visit 2 period 0"
says "a period that is missed, it says" "$shown" "judge 0 depth 0 visit 2 period -1"
spare="plan and sheet do not show the spare figure of its line"
says "another spare figure" "$spare" "judge 0 depth 0 accepted 1"
on_program() { # NAME STATUS OUTPUT MESSAGE LINE PLAN SHEET: the verdict where the program prints this line
    printf '#!/bin/sh\necho %s\n' "$5" >"$work/program"
    told "$1" "$2" "$3" "$4" $job verdict "$work/program" "$6" "$7"
}
strip 's/^period.*/period 25/'
on_program "another miss" 4 "" "program: $shown 'judge 0 depth 0 visit 2 period -3'" "judge 0 depth 0 visit 2 period -3" "$plan" "$work/strip.sheet"
strip 's/^period.*/period 11/'
printf 'route 0 0 0\n2 7\n1 7\n2 0\n1 0\n0 7\n' >"$work/bad.sheet"
on_program "the miss of a close before" 4 "" "program: $shown 'judge 0 depth 0 visit 2 period -2'" "judge 0 depth 0 visit 2 period -2" "$plan" "$work/bad.sheet"
on_program "a register on an open tap at fault" 4 "" "program: $shown 'judge 0 depth 0 visit 1 site'" "judge 0 depth 0 visit 1 site" examples/strip.txt "$work/two.sheet"
accepted="judge 0 depth 0 accepted 52"
head -n 2 "$work/strip.sheet" >"$work/bad.sheet"
on_program "one visit accepted" 4 "" "program: $spare '$accepted'" "$accepted" examples/strip.txt "$work/bad.sheet"
sed '/^1 /d' "$work/strip.sheet" >"$work/bad.sheet"
on_program "a step over two cells accepted" 4 "" "program: $spare '$accepted'" "$accepted" examples/strip.txt "$work/bad.sheet"
strip 's/^horizontal.*/horizontal R 65535 C 65535/' # what the real program refuses
lowest="judge 0 depth 0 visit 2 period -1000000000"
on_program "the lowest figure" 1 "visit 2 (cell 0, code 7): the span that closes here is 1000000000 half-ticks or more too long for the period, 26 ticks" "" \
    "$lowest" "$plan" "$work/strip.sheet"
on_program "an element for which the text shows no reason" 3 "refused 4" "examples/strip.txt: a number is outside its range (refusal 4)" \
    "judge 4 depth 0 fault 8 1" examples/strip.txt "$work/strip.sheet"
