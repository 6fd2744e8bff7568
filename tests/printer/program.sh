# What the program does with its input, and the longest routes.

$job write examples/detour.txt >"$work/job"
same_file "the job of the example" examples/detour.job "$work/job"
$printer <"$work/job" >"$work/text"
same_file "the text of the example" examples/detour.sheet "$work/text"
target/brute/brute text <"$work/job" >"$work/text"
same_file "the brute force on the example" examples/detour.sheet "$work/text"

# 1,024 visits fill the program's words, two more do not fit
$job write $here/fits.txt | $printer >"$work/text"
same "1,024 visits" "route 5 1023 22494 0" "$(head -n 1 "$work/text")"
same "lines of 1,024 visits" 1025 "$(wc -l <"$work/text")"
$job write $here/fits.txt | target/brute/brute text >"$work/again"
same_file "the brute force on 1,024 visits" "$work/text" "$work/again"
same "1,026 visits by the brute force" "refused 8" "$($job write $here/long.txt | target/brute/brute text)"

from() { # FILE: the program with this standard input
    timeout 20 $printer <"$1"
}
closed() { timeout 20 $printer <&-; }
told "closed standard input" 0 "" "route_printer: standard input: Bad file descriptor" closed
told "a folder as standard input" 0 "" "route_printer: standard input: Is a directory" from /
told "empty standard input" 0 "refused 15" "" from /dev/null
told "endless zeros" 0 "refused 1" "" from /dev/zero
same "endless input" "refused 1" "$(yes | timeout 20 $printer)"
same "a job, then no end" "refused 15" "$( (cat "$work/job"; yes) | timeout 20 $printer)"
same "225 bytes, then nothing, the input still open" "refused 15" \
    "$(timeout 10 $printer < <(yes "" | tr '\n' '\001' | head -c 225; exec sleep 12 2>/dev/null))"
# 225 bytes decide: a read after them would fail, and is not made
head -c 225 /dev/zero | tr '\0' '\1' >"$work/ones"
told "a failed read after 224 bytes" 0 "" "route_printer: standard input: Connection reset by peer" \
    timeout 20 target/tools/feed broken 224 $printer "$work/ones"
told "a failed read after 225 bytes" 0 "refused 15" "" timeout 20 target/tools/feed broken 225 $printer "$work/ones"
