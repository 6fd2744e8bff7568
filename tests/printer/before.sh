# Jobs from before there was a skew, a 0 put in after T, and what was printed then. The answer is the one of then, but where
# its route has a register, between the ends, on a cell with both marks: there it is another, the brute force's.

in_line() { paste -s -d , | sed 's/,/, /g'; }
on_blocked_tap() { # TEXT: whether such a register stands in the answer of then; the job is $work/sample
    $job read "$work/sample" 2>/dev/null | awk -v text="$1" '
        $1 == "row" { for (i = 2; i <= NF; i++) cells[count++] = $i }
        END {
            last = split(text, visits, ", ")
            for (i = 3; i < last; i++) {
                split(visits[i], visit, " ")
                if (visit[2] == 7 && cells[visit[1]] ~ /^xt/) found = 1
            }
            exit !found
        }'
}
met=
while read -r head tail text; do
    [ "$tail" != - ] || tail=
    printf '%b' "$(echo "${head}00$tail" | sed 's/../\\x&/g')" >"$work/sample"
    kind=
    if on_blocked_tap "$text"; then
        former=$text
        text=$(target/brute/brute text <"$work/sample" | in_line)
        checks=$((checks + 1))
        [ "$text" != "$former" ] || fail "a register on a blocked tap by the brute force, ${head}00$tail"
        kind=another:
    fi
    same "a job of before, ${head}00$tail" "$text" "$($printer <"$work/sample" | in_line)"
    met="$met $kind${text%%,*} "
done < <(grep -v '^#' $here/before.jobs)
for answer in "route 0" "route 1" "route 2" "route 3" none "refused 3" "refused 4" "refused 5" "refused 15" another:route another:none; do
    checks=$((checks + 1))
    [[ $met == *" $answer "* ]] || fail "no job of before met '$answer'"
done
