# What tools/programs, tools/route and tools/verdict share: the text tool compiled, and programs proved and built in
# target/bin where one is missing or older than its source. They set root, name (the command's own, for messages), programs
# and usage first.
tool=$root/target/tools/job
bin=$root/target/bin
log=$root/target/log/${name/\//_}.log

fail() { # STATUS MESSAGE..
    local status=$1
    shift
    printf '%s\n' "$@" >&2
    exit "$status"
}

version() {
    local commit
    commit=$(git -C "$root" rev-parse --short HEAD 2>/dev/null) && commit=", commit $commit"
    printf '%s %s%s\n' "$name" "$(cat "$root/tools/VERSION")" "$commit"
}

# The crates that these crates reach, themselves among them, each after those that it uses; the kit's libraries are not
# counted.
reached() { # CRATE..
    awk -v from="$*" '
        { sub(/#.*/, "") }
        split($0, part, ":") > 1 { split(part[1], word, " "); needs[word[1]] = part[2] }
        function visit(name,    list, n, i) {
            if (!(name in needs) || name in seen) return
            seen[name]
            n = split(needs[name], list, " ")
            for (i = 1; i <= n; i++) visit(list[i])
            print name
        }
        END { all = split(from, names, " "); for (k = 1; k <= all; k++) visit(names[k]) }' "$root/crates.txt"
}

# Whether a program is missing, or a source of it newer.
stale() { # PROGRAM
    local places=("$root/crates.txt") crate
    [ -x "$bin/$1" ] || return 0
    for crate in $(reached "$1"); do
        places+=("$root/crates/$crate/src" "$root/crates/$crate/specs" "$root/crates/$crate/proofs")
    done
    [ -n "$(find "${places[@]}" -newer "$bin/$1" -print -quit 2>/dev/null)" ]
}

# Puts the prover's lines into the log, and one line for each part to standard error.
tell() { # PARTS: one a line, in their order
    local all line part= begun=0 at
    all=$(wc -l <<<"$1")
    while IFS= read -r line; do
        printf '%s\n' "$line" >>"$log"
        case $line in
        'rt: chose --jobs '*)
            part=${line##* }
            begun=$SECONDS
            ;;
        'logic=proved '*)
            at=$(grep -nx "$part" <<<"$1")
            echo "[${at%%:*} of $all] $part, $((SECONDS - begun)) s" >&2
            ;;
        'rattle build: nothing was built'*) echo "$part NOT PROVED" >&2 ;;
        'rt: '*waiting*) echo "${line#rt: }" >&2 ;;
        esac
    done
}

# Proves and builds the programs. rt run also runs each, on its file stdin; what it prints is left out.
prove() {
    local parts program input began
    parts=$(reached "${programs[@]}")
    mkdir -p "${log%/*}" "$bin" && : >"$log" || fail 4 "$name: ${log#"$root"/} cannot be written"
    echo "proving the planner, $(wc -l <<<"$parts") parts; this takes several minutes the first time (${log#"$root"/} has the prover's lines)" >&2
    for program in "${programs[@]}"; do
        input=$root/crates/$program/stdin
        [ -f "$input" ] || input=/dev/null
        began=${EPOCHREALTIME/,/.}
        (cd "$root/crates/$program" && rt run <"$input" 2>&1 >/dev/null) | tell "$parts" ||
            fail 4 "$name: rt run in crates/$program failed; ${log#"$root"/} has the prover's lines"
        cp -f "$root/crates/$program/out/$program" "$bin/" 2>/dev/null || fail 4 "$name: rt run left no crates/$program/out/$program"
        # a source that was changed meanwhile is newer than the program
        touch -d "@$began" "$bin/$program"
    done
}

# Whether a text can be read twice: a pipe is read only once.
again() { [ "$1" != - ] && { [ -f "$1" ] || [ ! -e "$1" ]; }; }

# Whether a program has to be proved.
wanting() {
    local program
    for program in "${programs[@]}"; do
        stale "$program" || continue
        command -v rt >/dev/null && return
        fail 4 "$name: no rt, the Rattle toolchain (its kit's folder bin must be on the PATH), which proves and builds the planner"
    done
    return 1
}

# prepare CHECK..: the text tool and the programs; a text that cannot be read is told, by CHECK, before a long wait
prepare() {
    local proof=0
    [ -e /dev/fd/1 ] || fail 4 "$name: standard output is closed"
    wanting && proof=1
    "$root/tools/build" >&2 || exit 4
    if [ $proof = 1 ]; then
        "$@" || exit
        prove
    fi
}
