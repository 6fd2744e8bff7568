# Text to job and back. It uses what spans.sh has set up.

round() { # NAME JOB
    checks=$((checks + 1))
    $job read "$2" >"$work/text" && $job write "$work/text" >"$work/again" || fail "$1: no round trip"
    cmp -s "$2" "$work/again" || fail "$1: another job after the round trip"
    $job read "$work/again" | cmp -s - "$work/text" || fail "$1: another text after the round trip"
}
round "the example" "$work/job"

# Random jobs: what the tool reads, tools/route answers as the program does, and each refusal has its line. The texts without
# a route are kept for none.sh.
statuses=
while read -r hex; do
    printf '%b' "$(echo "$hex" | sed 's/../\\x&/g')" >"$work/sample"
    answer=$($printer <"$work/sample")
    checks=$((checks + 1))
    if $job read "$work/sample" >/dev/null 2>&1; then
        round "job $hex" "$work/sample"
        [ "$answer" != "refused 15" ] || fail "the tool reads a job that is refused with 15: $hex"
        case $answer in
        route*) status=0 message= ;;
        none) status=1 message= && cp "$work/text" "$work/none.$checks" ;;
        *) status=3 message="text:[0-9]+: .* \(refusal ${answer#refused }\)" ;;
        esac
        $job route $printer $player "$work/text" >"$work/out" 2>"$work/err"
        same "status on $hex" $status $?
        same "answer on $hex" "$answer" "$(sed '/^#/d; s/^none: .*/none/' "$work/out")"
        [ $status != 0 ] || same "the spans on $hex" "" "$(table_sums "$work/out")"
        said=$(sed "s|$work/||g" "$work/err")
        [[ $said =~ ^$message$ ]] || fail "message on $hex: '$said'"
        case $statuses in *$status*) ;; *) statuses=$statuses$status ;; esac
    else
        case $answer in
        route* | none | "refused 5") fail "the tool does not read a good job: $hex" ;;
        esac
    fi
done < <(target/brute/brute sample 150 1)
same "statuses met by random jobs" "0 1 3" "$(echo "$statuses" | grep -o . | sort | xargs)"

# A size without rows is a plan of open cells.
sed 's/^row.*//; s/^source.*/size 6 3\nsource 0 0/; s/^sink.*/sink 2 5/' examples/detour.txt >"$work/open.txt"
sed 's/^source.*/source 0 0/; s/^sink.*/sink 2 5/; /^row/d; $ a row . . . . . .\nrow . . . . . .\nrow . . . . . .' \
    examples/detour.txt >"$work/drawn.txt"
$job write "$work/open.txt" >"$work/again"
$job write "$work/drawn.txt" >"$work/job2"
same_file "a size without rows" "$work/job2" "$work/again"
told "a size without rows" 0 "route 0 7 125 10" "" sh -c "tools/route $work/open.txt | head -n 1"
sed 's/^source.*/size 16 8\n&/' examples/detour.txt | $job write >"$work/again"
same_file "a size with its rows" examples/detour.job "$work/again"
sed 's/$/\r/' examples/detour.txt | $job write - >"$work/again"
same_file "lines that end with both characters" examples/detour.job "$work/again"
