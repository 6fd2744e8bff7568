# The tool's messages about a text or a job: each names the line or the byte, and has status 2.

message() { # MESSAGE SED
    edited "$2"
    told "the example with '$2'" 2 "" "bad.txt:$1" $job write "$work/bad.txt"
}
last=$(wc -l <examples/detour.txt)
message "$(line '^period'): '12x' is not a whole number" 's/^period .*/period 12x/'
message "$(line '^period'): '-5' is not a whole number" 's/^period .*/period -5/'
message "$(line '^period'): 65536 is above 65535, the largest number taken" 's/^period .*/period 65536/'
message "$(line '^period'): 99999999999999999999999 is above 65535, the largest number taken" 's/^period .*/period 99999999999999999999999/'
message "$(line '^period'): one number is expected here, not 0" 's/^period .*/period/'
message "$(line '^period'): one number is expected here, not 2" 's/^period .*/period 1 2/'
message "$last: the text ends without the line 'period'" 's/^period .*//'
message "$(($(line '^limit') + 1)): limit is given already in line $(line '^limit')" 's/^limit.*/&\n&/'
message "$(line '^limit'): 'limmit' is not the name of a line; the names are row, size, register, horizontal, vertical, period, clocks, fifo, skew, limit, source, sink, buffer" 's/^limit/limmit/'
message "$(($(line '^limit') + 2)): skew is given already in line $(($(line '^limit') + 1))" 's/^limit.*/&\nskew 1\nskew 0/'
message "$(($(line '^limit') + 1)): one number is expected here, not 0" 's/^limit.*/&\nskew/'
message "$(($(line '^limit') + 1)): one number is expected here, not 2" 's/^limit.*/&\nskew 1 1/'
message "$(($(line '^limit') + 1)): '-1' is not a whole number" 's/^limit.*/&\nskew -1/'
message "$(($(line '^limit') + 1)): 65536 is above 65535, the largest number taken" 's/^limit.*/&\nskew 65536/'
message "$(line '^register'): setup is missing; the form is: R NUMBER K NUMBER C NUMBER setup NUMBER" 's/ setup 6//'
message "$(line '^register'): setup has no number; the form is: R NUMBER K NUMBER C NUMBER setup NUMBER" 's/ setup 6/ setup/'
message "$(line '^horizontal'): 'K' is not expected here; the form is: R NUMBER C NUMBER" 's/^horizontal R 1/horizontal K 1/'
message "$(line '^vertical'): R is given twice" 's/^vertical R 2 C 2/vertical R 2 R 2/'
message "$(line '^sink'): row 8, column 0 is outside the plan; its rows are 0 to 7, its columns 0 to 15" 's/^sink.*/sink 8 0/'
message "$(line '^source'): an end is a row and a column, or one cell number" 's/^source.*/source 1 2 3/'

# ---- the size
message "$last: the text ends without a row of the plan, and without its size" 's/^row.*//'
message "$(line '^sink'): the size is 8 wide and 16 high, but the rows are 16 wide and 8 high" 's/^sink.*/size 8 16/'
message "$(line '^sink'): the form is: size WIDTH HEIGHT" 's/^sink.*/size 8/'
message "$(line '^source'): the plan's width is 0 and its height 9; each must be 1 to 32" 's/^row.*//; s/^source.*/size 0 9\nsource 0 0/'
message "$(line '^source'): the plan's width is 60000 and its height 60000; each must be 1 to 32" 's/^row.*//; s/^source.*/size 60000 60000\nsource 0/'
message "$(line '# row 0'): the plan's width is 16 and its height 48; each must be 1 to 32" 's/^row[^#]*/&\n&\n&\n&\n&\n&/; s/^sink.*/sink 48 0/'
{ grep -v '^row\|^sink' examples/detour.txt; echo "sink 299 299"; row=$(printf ' .%.0s' {1..300}); for _ in {1..300}; do echo "row$row"; done; } >"$work/bad.txt"
told "a plan of 300 by 300" 2 "" "bad.txt:$(grep -n -m 1 '^row' "$work/bad.txt" | cut -d: -f1): the plan's width is 300 and its height 300; each must be 1 to 32" \
    $job write "$work/bad.txt"

# ---- cells
comment="'#' starts a comment; a blocked cell is drawn x"
message "$(line '# row 1'): this row has 17 cells, the first row (line $(line '# row 0')) has 16 ($comment)" 's/# row 1/. &/'
message "$(line '# row 1'): this row has 1 cell, the first row (line $(line '# row 0')) has 16 ($comment)" 's/^row.*# row 1/row . # row 1/'
message "$(line '# row 2'): cell 'q': 'q' is none of . x t | _" 's/\.\( *# row 2\)/q\1/'
message "$(line '# row 2'): cell 'xx': 'x' stands twice; cells are set apart by spaces" 's/\.\( *# row 2\)/xx\1/'
message "$(line '# row 2'): cell '.t': '.' is an open cell without a tap; leave the '.' out" 's/\.\( *# row 2\)/.t\1/'
message "$(line '# row 2'): cell '...x': '.' stands only at the start of a cell; cells are set apart by spaces" 's/\.\( *# row 2\)/...x\1/'
message "$(line '# row 2'): cell 'x.': '.' stands only at the start of a cell; cells are set apart by spaces" 's/\.\( *# row 2\)/x.\1/'
message "$(line '# row 2'): $comment" "$(line '# row 2')s/x .*/#   #   #   x   .   ./"
message "$(line '# row 2'): $comment" "$(line '# row 2')s/\. *# row 2/#/"
sed 's/ *# row.*//' examples/detour.txt >"$work/plain.txt"
sed "$(line '# row 3')s/\$/ ./" "$work/plain.txt" >"$work/bad.txt"
told "a row that is too long, without comments" 2 "" "bad.txt:$(line '# row 3'): this row has 17 cells, the first row (line $(line '# row 0')) has 16" \
    $job write "$work/bad.txt"

# ---- characters
message "1: the text starts with a byte order mark; save it as UTF-8 without one" '1s/^/\xef\xbb\xbf/'
message "1: the text is in UTF-16; save it as UTF-8 without a byte order mark" '1s/^/\xff\xfe/'
message "1: a carriage return stands within the line; save the text with a line feed at each line's end" '1s/$/\rlimit 3/'
message "$(line '^limit'): a control character (\\u{1b}) is no text (is it a job? 'job read' prints one)" 's/^limit/limit \x1b[31m/'
message "$(line '^limit'): '\\u{202e}24' is not a whole number" 's/^limit 24/limit \xe2\x80\xae24/'
message "$(line '^limit'): this is no text (is it a job? 'job read' prints one)" 's/^limit/limit \xff/'
tr '\n' '\r' <examples/detour.txt >"$work/bad.txt"
told "lines that end with a carriage return" 2 "" "bad.txt:1: a carriage return stands within the line; save the text with a line feed at each line's end" \
    $job write "$work/bad.txt"
told "a job as a text" 2 "" "examples/detour.job:1: a control character (\\u{10}) is no text (is it a job? 'job read' prints one)" \
    $job write examples/detour.job
told "an empty text" 2 "" "/dev/null:1: the text ends without a row of the plan, and without its size" $job write /dev/null

# ---- long words are cut, and endless texts not read
long=$(head -c 100000 /dev/zero | tr '\0' a)
cut=$(printf 'a%.0s' {1..40})..
message "$(line '^limit'): '$cut' is not a whole number" "s/^limit.*/limit $long/"
message "$(line '^limit'): '$cut' is not the name of a line; the names are row, size, register, horizontal, vertical, period, clocks, fifo, skew, limit, source, sink, buffer" "s/^limit.*/$long/"
message "$(line '^register'): '$cut' is not expected here; the form is: R NUMBER K NUMBER C NUMBER setup NUMBER" "s/^register.*/register $long 1/"
message "$(line '# row 2'): cell '$cut': 'a' is none of . x t | _" "s/\.\( *# row 2\)/$long\1/"
digits=$(tr a 9 <<<"$long")
message "$(line '^limit'): ${cut//a/9} is above 65535, the largest number taken" "s/^limit.*/limit $digits/"
told "an endless text" 2 "" "standard input: longer than 16777216 bytes; no plan or sheet is" sh -c "yes | $job write"
told "an endless job" 2 "" "/dev/zero: longer than 16777216 bytes; no plan or sheet is" $job read /dev/zero

# ---- jobs
bad_job() { # NAME BYTES MESSAGE
    printf "$2" >"$work/bad.job"
    told "$1" 2 "" "bad.job: $3" $job read "$work/bad.job"
}
strip='\3\1\0\2\0\1\2\1\1\2\3\2\3\31\0\77\0\2'
bad_job "an empty job" '' "the job ends after 0 bytes, at the width"
bad_job "a job cut short" "$strip" "the job ends after 18 bytes, at the buffer count"
bad_job "a job cut before its skew" '\3\1\0\2\0\1\2\1\1\2\3\2\3\31' "the job ends after 14 bytes, at the skew"
bad_job "a job cut within a buffer" "$strip"'\1\1' "the job ends after 20 bytes, at buffer 1 K"
bad_job "bytes left over" "$strip"'\0\0\0' "2 bytes left over after byte 19"
bad_job "a byte left over" "$strip"'\0\0' "1 byte left over after byte 19"
bad_job "a trailing zero" '\3\201\0' "byte 3, the height: a last byte of zero after another"
bad_job "65,536" '\3\1\200\200\4' "byte 3, the marks of cell 0: 65536 is above 65535"
bad_job "a fourth byte" '\3\1\200\200\200\1' "byte 3, the marks of cell 0: the number has a fourth byte"
bad_job "a text as a job" 'row . .\n' "the job ends after 8 bytes, at the marks of cell 6 (is it a plan text? 'job write' writes its job)"

# ---- words and files
usage="usage: job check [TEXT]
       job write [TEXT]
       job read [JOB]
       job route PRINTER PLAYER TEXT [--picture] [--svg FILE]
       job script TEXT SHEET
       job verdict PLAYER TEXT SHEET
       job --help
       job --version"
told "the tool without words" 2 "" "$usage" $job
told "the tool with an unknown word" 2 "" "$usage" $job wrote
told "the tool with too many words" 2 "" "$usage" $job write a b
told "job route with an unknown option" 2 "" "$usage" $job route $printer $player examples/detour.txt --pictures
told "the tool's version" 0 "job $(cat tools/VERSION)" "" $job --version
told "job write on a missing file" 4 "" "examples/missing.txt: No such file or directory (os error 2)" $job write examples/missing.txt
told "job read on a folder" 4 "" "examples: Is a directory (os error 21)" $job read examples
told "a file's name with an escape" 4 "" "no\\u{1b}.txt: No such file or directory (os error 2)" $job write $'no\e.txt'
cp examples/strip.txt "$work/"$'caf\xe9.txt'
told "a file's name that is no UTF-8" 0 "route 0 2 26 0" "" sh -c "$job route $printer $player $work/caf*.txt | head -n 1"
$job --help >"$work/out"
same_file "the tool's help" examples/README.md "$work/out"
