# Output that cannot be written: a full disk and closed pipes. Nothing is lost without a word or a status.

full="No space left on device"
onto_full() { "$@" >/dev/full; }
told "job write on a full disk" 4 "" "standard output: $full (os error 28)" onto_full $job write examples/detour.txt
told "job read on a full disk" 4 "" "standard output: $full (os error 28)" onto_full $job read examples/detour.job
told "job --help on a full disk" 4 "" "standard output: $full (os error 28)" onto_full $job --help
told "job --version on a full disk" 4 "" "standard output: $full (os error 28)" onto_full $job --version
told "tools/route on a full disk" 4 "" "standard output: $full (os error 28)" onto_full tools/route examples/detour.txt
told "a picture on a full disk" 4 "" "standard output: $full (os error 28)" onto_full tools/route --picture examples/detour.txt
told "none on a full disk" 4 "" "standard output: $full (os error 28)" onto_full tools/route examples/slow.txt
told "a drawing of none on a full disk" 4 "$(tools/route examples/slow.txt)" "/dev/full: $full (os error 28)" \
    tools/route --svg /dev/full examples/slow.txt
edited 's/^limit .*/limit 64/'
told "a refusal on a full disk" 4 "" "standard output: $full (os error 28)" onto_full tools/route "$work/bad.txt"
told "a drawing on a full disk" 4 "$(tools/route examples/detour.txt)" "/dev/full: $full (os error 28)" tools/route --svg /dev/full examples/detour.txt
told "a drawing into no folder" 4 "$(tools/route examples/detour.txt)" "missing/a.svg: No such file or directory (os error 2)" \
    tools/route --svg "$work/missing/a.svg" examples/detour.txt
onto_full tools/route --help 2>"$work/err"
same "status of tools/route --help on a full disk" 4 $?
grep -q "$full" "$work/err" || fail "tools/route --help on a full disk says nothing"
onto_full tools/route --version 2>"$work/err"
same "status of tools/route --version on a full disk" 4 $?
grep -q "$full" "$work/err" || fail "tools/route --version on a full disk says nothing"
# a Rattle program's status is 0; its line on standard error tells
printer_full() { $printer <examples/detour.job >/dev/full; }
told "the program on a full disk" 0 "" "route_printer: standard output: $full" printer_full

closed() { tools/route examples/detour.txt >&-; }
told "tools/route with its output closed" 4 "" "tools/route: standard output is closed" closed

# A reader that goes away: no word, status 0 or 4, never a panic.
closed_pipe() { # COMMAND..
    local status
    for _ in 1 2 3 4 5 6 7 8 9 10; do
        "$@" 2>"$work/err" | true
        status=${PIPESTATUS[0]}
        checks=$((checks + 1))
        { [ "$status" = 0 ] || [ "$status" = 4 ]; } && [ ! -s "$work/err" ] || fail "$*, into a closed pipe: status $status, '$(cat "$work/err")'"
    done
}
closed_pipe $job --help
closed_pipe $job write examples/detour.txt
closed_pipe $job read examples/detour.job
closed_pipe tools/route --help
closed_pipe tools/route --picture examples/detour.txt
# the pipe has no reader at all when the tool starts
late() { (sleep 0.2; exec "$@") | true; return "${PIPESTATUS[0]}"; }
told "job --help without a reader" 4 "" "" late $job --help
told "tools/route without a reader" 4 "" "" late tools/route examples/detour.txt
told "none without a reader" 4 "" "" late tools/route examples/slow.txt
told "tools/route --help without a reader" 4 "" "" late tools/route --help
