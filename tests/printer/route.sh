# tools/route: its words, what it builds and when, and what it does with a program that fails.

usage="usage: tools/route [--picture] [--svg FILE] TEXT"
told "tools/route without a file" 2 "" "$usage" tools/route
told "tools/route with two files" 2 "" "$usage" tools/route a b
told "an option that there is not" 2 "" "tools/route: '--pictures' is not an option
$usage" tools/route --pictures examples/detour.txt
told "--svg without a file" 2 "" "tools/route: --svg needs the name of a file
$usage" tools/route examples/detour.txt --svg
told "a missing file" 4 "" "examples/missing.txt: No such file or directory (os error 2)" tools/route examples/missing.txt
example=$(tools/route examples/detour.txt)
from_there() { (cd examples && ../tools/route detour.txt); }
told "the example, from another folder" 0 "$example" "" from_there
from_pipe() { tools/route <(cat examples/detour.txt); }
told "the example, from a pipe" 0 "$example" "" from_pipe
same "the help's first line" "$usage" "$(tools/route --help | head -n 1)"
same "the version" "tools/route $(cat tools/VERSION)" "$(tools/route --version | cut -d, -f1)"

# ---- a repository of few crates, a prover that proves nothing, and few other commands
fake=$work/repository
few=$work/commands
mkdir -p "$fake/examples" "$fake/target/tools" "$fake"/crates/{plan,other,script,route_printer,session_player}/src "$few"
echo "its own input" >"$fake/crates/session_player/stdin"
cp -r tools "$fake/"
cp examples/README.md "$fake/examples/"
printf 'plan:\nother: plan\nscript:\nroute_printer: io plan # and a comment\nsession_player: plan script\n' >"$fake/crates.txt"
for command in bash dirname cat awk wc grep find mkdir touch mv mktemp rm chmod cp; do
    ln -s "$(command -v $command)" "$few/$command"
done
cp examples/twice.txt "$work/twice.txt"
printf 'row\n' >"$work/bad.txt"
twice="$(tools/route examples/twice.txt)"
in_fake() { PATH=$few "$fake/tools/route" "$@"; }
# a run without the words of how long each part took
timed() {
    in_fake "$@" 2>"$work/lines"
    local status=$?
    sed 's/, [0-9]* s$/, N s/' "$work/lines" >&2
    return $status
}
first=route_printer
calls() { grep -c " $first " "$work/calls"; }
: >"$work/calls"

told "no rt" 4 "" "tools/route: no rt, the Rattle toolchain (its kit's folder bin must be on the PATH), which proves and builds the planner" \
    in_fake "$work/twice.txt"
# rt run in a program's folder: it proves what has changed, builds and runs the program
cat >"$few/rt" <<END
program=\${PWD##*/}
echo "rt \$* in \$program on '\$(cat)'" >>"$work/calls"
part() { # NAME
    echo "rt: chose --jobs 2 for \$1"
    [ "\$1" != route_printer ] || [ ! -e "$work/broken" ] || {
        echo "fn route_printer::main: not proved"
        echo "logic=not-proved"
        echo "rattle build: nothing was built, since only a proved crate is built"
        exit 1
    }
    echo "logic=proved functions=1 and more"
}
rm -f out/\$program
[ \$program != session_player ] || part script >&2
part \$program >&2
echo "rt: running out/\$program" >&2
echo "what the program prints"
mkdir -p out
[ \$program != route_printer ] || cp "$PWD/$printer" out/
[ \$program != session_player ] || [ -e "$work/unbuilt" ] || cp "$PWD/$player" out/
END
chmod +x "$few/rt"
told "no rustc" 4 "" "tools/build: no rustc, the Rust compiler (Debian: package rustc), which compiles tools/job; examples/detour.job is a job without it" \
    in_fake "$work/twice.txt"
same "proofs without rustc" 0 "$(calls)"
cat >"$few/rustc" <<END
echo "rustc \$*" | sed 's/tmp\.[A-Za-z0-9]*/NEW/' >>"$work/compiled"
cp "$PWD/$job" "\$5"
END
chmod +x "$few/rustc"
ln -s "$(command -v sed)" "$few/sed"
told "a bad text before the first proof" 2 "" "bad.txt:1: the text ends without the line 'register'" in_fake "$work/bad.txt"
told "a missing text before the first proof" 4 "" "missing.txt: No such file or directory (os error 2)" in_fake "$work/missing.txt"
same "proofs before a good text" 0 "$(calls)"
same "the compiler's words" "rustc -O --edition 2021 -o target/tools/NEW/job tools/job/main.rs" "$(cat "$work/compiled")"
log=target/log/tools_route.log
wait="proving the planner, 4 parts; this takes several minutes the first time ($log has the prover's lines)"
told "the first run" 0 "$twice" "$wait
[2 of 4] route_printer, N s
[3 of 4] script, N s
[4 of 4] session_player, N s" timed "$work/twice.txt"
same "the prover's words" "rt run in route_printer on ''
rt run in session_player on 'its own input'" "$(cat "$work/calls")"
same "the log" "rt: chose --jobs 2 for route_printer
logic=proved functions=1 and more
rt: running out/route_printer
rt: chose --jobs 2 for script
logic=proved functions=1 and more
rt: chose --jobs 2 for session_player
logic=proved functions=1 and more
rt: running out/session_player" "$(cat "$fake/$log")"
told "the second run" 0 "$twice" "" in_fake "$work/twice.txt"
told "a run without a route" 1 "$(tools/route examples/slow.txt)" "" in_fake examples/slow.txt
touch "$fake/crates/other/src/lib.rt"
told "a run after a change of another crate" 0 "$twice" "" in_fake "$work/twice.txt"
same "proofs up to here" 1 "$(calls)"
touch "$fake/crates/plan/src/lib.rt"
in_fake "$work/twice.txt" >"$work/out" 2>/dev/null
same "proofs after a change" 2 "$(calls)"
in_fake "$work/twice.txt" >"$work/out" 2>/dev/null
same "proofs when nothing has changed since" 2 "$(calls)"
touch "$fake/crates/script/src/lib.rt"
in_fake examples/two_clocks.txt >"$work/out" 2>/dev/null
same "proofs after a change of the second program alone, for a text with two clocks" 3 "$(calls)"
rm "$fake/target/bin/session_player"
touch "$work/unbuilt"
in_fake "$work/twice.txt" >"$work/out" 2>"$work/err"
same "status where the second program is not built" 4 $?
same "what is said then" "tools/route: rt run left no crates/session_player/out/session_player" "$(tail -n 1 "$work/err")"
rm "$work/unbuilt"
in_fake "$work/twice.txt" >"$work/out" 2>/dev/null
same "proofs after the second program was missing" 5 "$(calls)"
touch "$fake/tools/job/svg.rs"
told "a run after a change of the tool" 0 "$twice" "" in_fake "$work/twice.txt"
same "compilations after a change of the tool" 2 "$(wc -l <"$work/compiled")"
touch "$fake/crates.txt" "$work/broken"
told "a proof that fails" 4 "" "$wait
route_printer NOT PROVED
tools/route: rt run in crates/route_printer failed; $log has the prover's lines" in_fake "$work/twice.txt"
rm "$work/broken"
in_fake "$work/twice.txt" >"$work/out" 2>/dev/null
same "proofs after one that failed" 7 "$(calls)"

# ---- a program that fails, or answers about something else
as_program() { # NAME MESSAGE SCRIPT
    printf '#!/bin/sh\n%s\n' "$3" >"$work/program"
    chmod +x "$work/program"
    told "$1" 4 "" "program: $2" $job route "$work/program" $player examples/twice.txt
}
fit="its route does not fit the plan:"
as_program "a program that cannot write" "it says: route_printer: standard output: No space left on device" "exec $PWD/$printer >/dev/full"
as_program "a program that cannot read" "it says: route_printer: standard input: Bad file descriptor" "exec $PWD/$printer <&-"
as_program "a program that prints nothing" "it printed no answer, but ''" ""
as_program "half an answer" "its route does not fit the plan: it says 4 steps and has 2 visits" "printf 'route 1 4 24 0\n2 7\n1 0\n'"
as_program "an answer without its last line's end" "it printed no answer, but 'none'" "printf none"
as_program "a program that fails" "it ended with exit status: 7" "exit 7"
as_program "a program that is ended" "it ended with signal: 9 (SIGKILL)" 'kill -9 $$'
as_program "words" "it printed no answer, but 'none\\n\\u{1b}'" "printf 'none\n\33\n'"
as_program "a refusal that the text cannot meet" "it refused the job of the text with 15, and did not get it whole" "echo refused 15"
as_program "a cell outside the plan" "$fit it visits cell 6, which is not in the plan" "printf 'route 0 1 12 0\n2 7\n6 7\n'"
as_program "a code that there is not" "$fit it has the gate code 1" "printf 'route 0 2 12 0\n2 7\n1 1\n0 7\n'"
as_program "cells that are not joined" "$fit no wire joins its cells 2 and 0" "printf 'route 0 1 12 0\n2 7\n0 7\n'"
as_program "another sink" "$fit it does not lead from the sink to the source" "printf 'route 0 1 12 0\n1 7\n0 7\n'"
as_program "invented registers" "$fit its first line says registers 1, latency 24" "printf 'route 1 2 24 0\n2 7\n1 0\n0 7\n'"
as_program "an invented latency" "$fit its first line says registers 0, latency 24" "printf 'route 0 2 24 0\n2 7\n1 0\n0 7\n'"
instead() { # NAME MESSAGE LINE: the program's answer with another first line
    as_program "$1" "$2" "$PWD/$printer | sed '1s/.*/$3/'"
}
instead "another spare figure" "$fit its first line says spare 1, and its spans have 0" "route 1 4 24 1"
as_program "a span that is too long" "$fit its first line says spare 0, and its spans have -28" "printf 'route 0 2 12 0\n2 7\n1 0\n0 7\n'"
instead "a spare figure below zero" "it printed no answer, but 'route 1 4 24 -1\\n2 7\\n1 0\\n4 7\\n1 0\\n0 7'" "route 1 4 24 -1"
instead "a spare figure that is no number" "it printed no answer, but 'route 1 4 24 00\\n2 7\\n1 0\\n4 7\\n1 0\\n0 7'" "route 1 4 24 00"
instead "three figures" "it printed no answer, but 'route 1 4 24\\n2 7\\n1 0\\n4 7\\n1 0\\n0 7'" "route 1 4 24"
instead "five figures" "it printed no answer, but 'route 1 4 24 0 0\\n2 7\\n1 0\\n4 7\\n1 0\\n0 7'" "route 1 4 24 0 0"
told "a missing program" 4 "" "missing: No such file or directory (os error 2)" $job route "$work/missing" $player examples/twice.txt
printf '#!/bin/sh\necho refused 4\n' >"$work/program"
told "a refusal for which the text shows no reason" 3 "refused 4" "examples/twice.txt: a number is outside its range (refusal 4)" \
    $job route "$work/program" $player examples/twice.txt
