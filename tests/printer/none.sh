# Why there is no route: each reason in words, the same by the brute force, and a second program that fails or does not
# agree. It uses the random jobs without a route that text.sh has kept.

period="the smallest period is"
load="the load limit, no route keeps it even with the period test left out"
walled="walled off, no chain of uncut wires joins the ends"
short="the period, even 30000 ticks are too short"

# Without delays and skew every span is in time, and with loads of 0 too every chain of uncut wires is a route.
no_delays='s/\<\(R\|K\|setup\|skew\) [0-9]*/\1 0/g'
no_loads="$no_delays; s/\<C [0-9]*/C 0/g"
at() { echo "s/^period .*/period $1/"; } # TICKS
force() { # TEXT SED: whether the text with this change has a route, by the brute force
    [[ $(sed "$2" "$1" | $job write | target/brute/brute text) =~ ^(route|refused 8) ]]
}
holds() { # TEXT LINE
    local ticks=${2//[!0-9]/}
    checks=$((checks + 1))
    case $2 in
    "none: $period $ticks ticks") force "$1" "$(at "$ticks")" && ! force "$1" "$(at $((ticks - 1)))" ;;
    "none: $short") force "$1" "$no_delays" && ! force "$1" "$(at 30000)" ;;
    "none: $load") force "$1" "$no_loads" && ! force "$1" "$no_delays" ;;
    "none: $walled") ! force "$1" "$no_loads" ;;
    *) false ;;
    esac || fail "not so by the brute force: '$2' of $(tr '\n' ';' <"$1")"
}
because() { # WORDS TEXT SED
    sed "$3" "$2" >"$work/bad.txt"
    told "$2 with '$3'" 1 "none: $1" "" tools/route "$work/bad.txt"
    same "the program on $2 with '$3'" none "$($job write "$work/bad.txt" | $printer)"
    holds "$work/bad.txt" "none: $1"
}
told "the example without a route" 1 "$(guide 'none: ')" "" tools/route examples/slow.txt
for words in "$walled" "$load" "$period T ticks" "$short"; do
    same "in the guide: $words" 1 "$(grep -c "^| $words |" docs/GUIDE.md)"
done
strip=examples/strip.txt
because "$period 12 ticks" $strip 's/^period .*/period 11/' # R4
because "$period 12 ticks" $strip 's/^period .*/period 1/'
because "$period 26 ticks" $strip 's/^period .*/period 25/; s/^row.*/row . x ./' # R11
because "$period 26 ticks" $strip 's/^period .*/period 22/; s/^row.*/row . xt .\nbuffer R 1 K 1 C 1/' # R12
because "$load" $strip 's/^limit .*/limit 6/; s/^row.*/row . xt ./'
because "$period 30000 ticks" $strip 's/setup 1/setup 29989/'
because "$short" $strip 's/setup 1/setup 29990/'
because "$short" $strip 's/setup 1/setup 30000/; s/^period .*/period 30000/'
because "$load" $strip 's/^limit .*/limit 3/' # R7
because "$load" $strip 's/^limit .*/limit 0/; s/^period .*/period 1/; s/setup 1/setup 30000/'
because "$walled" $strip 's/^row.*/row . t| ./'
because "$walled" $strip 's/^row.*/row .| t ./; s/^limit .*/limit 0/; s/^period .*/period 1/'
because "$period 13 ticks" $strip 's/^period .*/period 12\nskew 1/' # R3 with skew 1
because "$period 25 ticks" $strip 's/^period .*/period 12\nskew 13/' # above T
because "$period 30000 ticks" $strip 's/^period .*/period 12\nskew 29988/'
because "$short" $strip 's/^period .*/period 12\nskew 29989/'
because "$short" $strip 's/^period .*/period 30000\nskew 30000/'
because "$load" $strip 's/^period .*/period 12\nskew 30000/; s/^limit .*/limit 3/'
because "$walled" $strip 's/^period .*/period 12\nskew 30000/; s/^row.*/row . t| ./'
because "$period 108 ticks" examples/detour.txt 's/^period .*/period 20/'
because "$load" examples/detour.txt 's/^limit .*/limit 3/'
because "$walled" examples/detour.txt 's/^\(row *\.   \.   \.   \. *\)\([.t]\)|\?/\1\2|/'
because "$period 3749 ticks" $here/fits.txt 's/^period .*/period 3748/'
for text in "$work"/none.*; do
    holds "$text" "$($job route $printer $player "$text")"
done

# ---- the second program: when it is asked, and what
cp examples/slow.txt "$work/bad.txt"
asked() { # TEXT: with a second program that keeps what it reads
    printf '#!/bin/sh\ntee "%s" | %s\n' "$work/script" $PWD/$player >"$work/program"
    chmod +x "$work/program"
    $job route $printer "$work/program" "$1"
}
told "the strip's question" 1 "none: $period 12 ticks" "" asked "$work/bad.txt"
same "the script of the strip's question" "plan 3 0 2 0
tables 1 2 1 1 2 3 2 3 11 0 63
buffers 0
reason 3 1 0 2" "$(cat "$work/script")"
missing="missing: No such file or directory (os error 2)"
told "a missing second program" 4 "" "$missing" $job route $printer "$work/missing" "$work/bad.txt"
told "a missing second program, and a route" 0 "$(tools/route $strip)" "" $job route $printer "$work/missing" $strip
sed 's/^limit .*/limit 64/' $strip >"$work/refused.txt"
told "a missing second program, and a refusal" 3 "refused 4" "refused.txt:6: limit 64 is outside 0 to 63 (refusal 4)" \
    $job route $printer "$work/missing" "$work/refused.txt"
told "no drawing without a reason" 4 "" "$missing" \
    $job route $printer "$work/missing" "$work/bad.txt" --picture --svg "$work/none.svg"
[ ! -e "$work/none.svg" ] || fail "a drawing without a reason"

# ---- a second program that fails, prints something else, or does not agree
as_second() { # NAME MESSAGE SCRIPT
    printf '#!/bin/sh\n%s\n' "$3" >"$work/program"
    chmod +x "$work/program"
    told "$1, asked why" 4 "" "program: $2" $job route $printer "$work/program" "$work/bad.txt"
}
as_second "a program that prints nothing" "it printed no reason, but ''" ""
as_second "a program that fails" "it ended with exit status: 7" "exit 7"
as_second "a program that is ended" "it ended with signal: 9 (SIGKILL)" 'kill -9 $$'
as_second "a program that cannot write" "it says: session_player: standard output: No space left on device" "exec $PWD/$player >/dev/full"
as_second "a program that cannot read" "it says: session_player: standard input: Bad file descriptor" "exec $PWD/$player <&-"
as_second "bytes" "what it printed is no text" "printf '\\377\\n'"
as_second "a line without its end" "it printed no reason, but 'reason 0 depth 0 load zeroed 768'" "printf 'reason 0 depth 0 load zeroed 768'"
as_second "two lines" "it printed no reason, but 'reason 0 depth 0 period 12 zeroed 768\\nre..'" "$PWD/$player; echo reason 0 depth 0 load zeroed 768"
says() { # LINE..: neither a reason nor a refusal
    for line in "$@"; do
        as_second "'$line'" "it printed no reason, but '$line'" "echo '$line'"
    done
}
says "bad script: line 4: a number is missing" "none" "reason 0 depth 0" "reason 0 depth 0 zeroed 768" \
    "reason 0 depth 0 load" "reason 0 depth 0 load zeroed" "reason 0 depth 0 load zeroed x" "reason 0 depth 1 load zeroed 768" \
    "reason 0 depth 0 late zeroed 768" "reason 0 depth 0 walled load zeroed 768" "reason 0 depth 0 period zeroed 768" \
    "reason 0 depth 0 period -1 zeroed 768" "reason 0 depth 0 period 012 zeroed 768" "reason 0 depth 0 period 12 0 zeroed 768" \
    "reason 19 depth 0 load zeroed 768" "reason 00 depth 0 load zeroed 768" "reason x depth 0 zeroed 768" "judge 0 depth 0 accepted 0"
differs() { # LINE..: a route exists, or the job is refused
    for line in "$@"; do
        as_second "'$line'" "the route printer says none, and it says '$line'" "echo '$line'"
    done
}
differs "reason 19 depth 0 zeroed 768" "reason 1 depth 0 zeroed 0" "reason 4 depth 0 fault 1 zeroed 0" "reason 4 depth 0 fault 8 1 zeroed 0" \
    "reason 6 depth 0 zeroed 0" "reason 0 depth 0 period 10 zeroed 768" "reason 0 depth 0 period 11 zeroed 768" \
    "reason 0 depth 0 period 30001 zeroed 768"
printf '#!/bin/sh\necho none\n' >"$work/says_none"
chmod +x "$work/says_none"
told "none of a plan that has a route" 4 "" "$player: the route printer says none, and it says 'reason 19 depth 0 zeroed 768'" \
    $job route "$work/says_none" $player $strip
