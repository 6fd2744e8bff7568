# Pictures and drawings of plan and route.

picture() { # STATUS NAME TEXT: the program's own lines, an empty one, the stored picture
    tools/route "$3" | cat - <(echo) $here/"$2.picture" >"$work/whole"
    told "the picture $2" "$1" "$(cat "$work/whole")" "" tools/route --picture "$3"
    same_file "the picture $2" "$work/whole" "$work/out"
}
picture 0 detour examples/detour.txt
picture 0 twice examples/twice.txt
picture 0 fits $here/fits.txt
picture 0 wide $here/wide.txt
edited 's/^period .*/period 20/'
picture 1 none "$work/bad.txt"
edited 's/^period .*/period 120/'
same "a blocked tap that a route passes, in the picture" 1 "$(tools/route --picture "$work/bad.txt" | grep -o ' +xt ' | wc -l)"
same "the widest line of the picture of 16 by 8" 101 "$(wc -L <$here/detour.picture)"

# A drawing is XML, shows each visit in its order, and lies where the cells lie.
drawing() { # STATUS NAME TEXT VISITS
    rm -f "$work/drawing.svg"
    told "the drawing $2" "$1" "$(tools/route "$3")" "" tools/route --svg "$work/drawing.svg" "$3"
    same "the drawing $2" "$4" "$(python3 $here/drawing.py "$work/drawing.svg" 2>&1)"
}
title() { # WORDS, of the last drawing
    same "the title of a drawing" "$1" "$(sed -n 's|^<title>\(.*\)</title>$|\1|p' "$work/drawing.svg")"
}
drawing 0 detour examples/detour.txt "22 visits, 22 points, 8 taps, 47 blocked, 20 cuts"
title "examples/detour.txt: registers 2, steps 21, latency 375 ticks, spare 0 half-ticks"
drawing 0 wide $here/wide.txt "38 visits, 38 points, 9 taps, 16 blocked, 4 cuts"
title "$here/wide.txt: registers 4, steps 37, latency 300 ticks, spare 1 half-tick"
drawing 0 twice examples/twice.txt "5 visits, 5 points, 1 taps, 1 blocked, 0 cuts"
drawing 0 fits $here/fits.txt "1024 visits, 1024 points, 5 taps, 46 blocked, 74 cuts"
edited 's/^period .*/period 20/'
drawing 1 none "$work/bad.txt" "0 visits, 0 points, 8 taps, 47 blocked, 20 cuts"
strange=$work/$'<a&b>"\e.txt'
cp examples/twice.txt "$strange"
drawing 0 "of a text with a strange name" "$strange" "5 visits, 5 points, 1 taps, 1 blocked, 0 cuts"
both() { tools/route --svg "$work/drawing.svg" --picture examples/twice.txt; }
told "picture and drawing at once" 0 "$(tools/route --picture examples/twice.txt)" "" both
rm -f "$work/drawing.svg"
edited 's/^limit .*/limit 64/'
told "a refused job is not drawn" 3 "refused 4" "bad.txt:$(line '^limit'): limit 64 is outside 0 to 63 (refusal 4)" \
    tools/route --picture --svg "$work/drawing.svg" "$work/bad.txt"
[ ! -e "$work/drawing.svg" ] || fail "a refused job has a drawing"
