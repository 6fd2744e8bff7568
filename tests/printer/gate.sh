# The gate, .ci/run, over a prover that proves nothing: it fails with each edit that was not tried and refused, each
# program that was not built, and each outside test that is missing or fails.

gate=$work/gate
prover=$work/prover
mkdir -p "$gate/.ci" "$gate"/crates/{low,app}/{src,must-fail} "$prover"
cp .ci/run "$gate/.ci/"
touch "$gate"/crates/low/{src/lib.rt,must-fail/one.edit,must-fail/two.edit} "$gate"/crates/app/{src/main.rt,must-fail/one.edit}
cat >"$prover/rt" <<END
#!/bin/sh
echo "rt \$*" >"$prover/call"
find . >"$prover/found"
mkdir -p crates/app/out
[ -e "$prover/unbuilt" ] || echo app >crates/app/out/app
cat "$prover/lines"
exit \$(cat "$prover/status")
END
chmod +x "$prover/rt"

outside() { # TESTS..: folders of tests; good passes, bad fails, plain is not executable, empty has no run
    rm -rf "$gate/tests"
    for name in "$@"; do
        mkdir -p "$gate/tests/$name"
        printf '#!/bin/sh\necho %s\n[ %s != bad ]\n' "$name" "$name" >"$gate/tests/$name/run"
        [ "$name" = plain ] || chmod +x "$gate/tests/$name/run"
        [ "$name" != empty ] || rm "$gate/tests/$name/run"
    done
}
gate_says() { # NAME STATUS LINES, with the prover's lines and status in place
    told "the gate: $1" "$2" "$3" "${4-}" env PATH="$prover:$PATH" "$gate/.ci/run"
}
prover() { # STATUS LINES
    echo "$1" >"$prover/status"
    echo "$2" >"$prover/lines"
}
ok="rt: ok; handles allowed: none; must-fail edits: 3 refused; every proof and must-fail edit was done in this run"
proved="$ok
138 passed, 0 failed"
prover 0 "$proved"
outside good
(cd "$gate" && find .) >"$work/stood"
gate_says "all is well" 0 "$proved
good
138 passed, 0 failed"
same "the gate's call" "rt ci" "$(cat "$prover/call")"
same_file "the checkout that rt ci meets" "$work/stood" "$prover/found"
same "the program for the outside tests" app "$(cat "$gate/target/bin/app")"
same "the gate's log" "$proved" "$(cat "$gate/target/ci.log")"
outside bad good
gate_says "a test fails" 1 "$proved
bad
outside test failed: tests/bad/run
good
138 passed, 1 failed"
outside good plain
gate_says "a run that is not executable" 1 "$proved
good
outside test failed: tests/plain/run is not executable
138 passed, 1 failed"
outside empty good plain
gate_says "a folder without a run, and another failure" 1 "$proved
outside test failed: tests/empty/run is missing
good
outside test failed: tests/plain/run is not executable
138 passed, 2 failed"
outside good
edits_say() { # NAME STATUS WORDS LINES: rt ci has these words of the edits
    prover 0 "${proved/; must-fail edits: 3 refused/$3}"
    gate_says "$1" "$2" "$(cat "$prover/lines")
${4-}good
138 passed, $2 failed"
}
lost="must-fail edits: not all 3 were tried and refused
"
edits_say "edits that only a limit refused" 0 "; must-fail edits: 3 refused, 2 of them only by a limit"
edits_say "one more edit, which is bad" 1 "; must-fail edits: 3 refused, 1 bad" "$lost"
edits_say "a bad edit beside a limit" 1 "; must-fail edits: 2 refused, 1 of them only by a limit, 1 bad" "$lost"
edits_say "an edit too few" 1 "; must-fail edits: 2 refused" "$lost"
edits_say "no word of the edits" 1 "" "$lost"
prover 0 "$proved"
rm -r "$gate/crates/app/out"
touch "$prover/unbuilt"
gate_says "a program is not built" 1 "$proved
rt ci left no program crates/app
good
138 passed, 1 failed" "cp: cannot stat 'crates/app/out/app': No such file or directory"
prover 1 "rt: FAILED: plan
137 passed, 1 failed"
gate_says "a crate is not proved" 1 "rt: FAILED: plan
137 passed, 1 failed
137 passed, 1 failed"
prover 2 "137 passed, 0 failed"
gate_says "the prover fails, and counts no failure" 1 "137 passed, 0 failed
137 passed, 1 failed"
rm "$prover/unbuilt"
prover 0 "$ok"
gate_says "the prover gives no count" 1 "$ok
good
rt ci did not end with a count; 0 outside tests failed"
