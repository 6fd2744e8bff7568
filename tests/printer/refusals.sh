# Every refusal that a text can meet: the program's line, and the reason with its line in the text. Status 3.

refuse() { # NUMBER LINE: REASON, SED
    edited "$3"
    told "the example with '$3'" 3 "refused $1" "bad.txt:$2 (refusal $1)" tools/route "$work/bad.txt"
    same "the program on the example with '$3'" "refused $1" "$($job write "$work/bad.txt" | $printer)"
}
sides="each must be 1 to 32"
refuse 1 "$(line '# row 0'): the plan's width is 48 and its height 8; $sides" 's/^row  *\([^#]*\)#.*/row \1 \1 \1/'
refuse 1 "$(line '# row 0'): the plan's width is 33 and its height 1; $sides" "s/^source.*/source 0 0/; s/^sink.*/sink 0 32/; /^row/d; $(($(line '# row 0') - 1))a row$(printf ' .%.0s' {1..33})"
refuse 1 "$(($(line '# row 0') + 32)): the plan's width is 16 and its height 40; $sides" 's/^row[^#]*/&\n&\n&\n&\n&/'
refuse 1 "$(line '^source'): the plan's width is 0 and its height 9; $sides" 's/^row.*//; s/^source.*/size 0 9\nsource 0/; s/^sink.*/sink 1/'
refuse 1 "$(line '^source'): the plan's width is 33 and its height 2; $sides" 's/^row.*//; s/^source.*/size 33 2\nsource 0 32/; s/^sink.*/sink 1/'
refuse 16 "$(($(line '# row 7') + 2)): the plan has 144 cells (16 by 9), and the program takes at most 128" 's/# row 7/\n&\nrow . . . . . . . . . . . . . . . ./'
refuse 16 "$(line '^source'): the plan has 1024 cells (32 by 32), and the program takes at most 128" 's/^row.*//; s/^source.*/size 32 32\n&/'
refuse 3 "$(line '# row 0'): cell 0 (row 0, column 0) has marks 16, outside 0 to 15" '0,/^row *\./s//row 16/'
refuse 3 "$(line '# row 7'): cell 127 (row 7, column 15) cuts the wire below, and the last row has none" 's/^\(row .*\)\.\( *# row 7\)/\1._\2/'
refuse 3 "$(line '# row 6'): cell 111 (row 6, column 15) cuts the wire to the right, and the last column has none" 's/^\(row .*\)\.\( *# row 6\)/\1.|\2/'
refuse 4 "$(line '^limit'): limit 64 is outside 0 to 63" 's/^limit .*/limit 64/'
refuse 4 "$(line '^limit'): limit 65535 is outside 0 to 63" 's/^limit .*/limit 65535/'
refuse 4 "$(line '^period'): period 0 is outside 1 to 30000" 's/^period .*/period 0/'
refuse 4 "$(line '^period'): period 30001 is outside 1 to 30000" 's/^period .*/period 30001/; s/^limit .*/limit 64/'
refuse 4 "$(line '^period'): period 0 is outside 1 to 30000" 's/^period .*/period 0/; s/^limit .*/skew 30001\n&/'
refuse 4 "$(line '^limit'): skew 30001 is outside 0 to 30000" 's/^limit .*/skew 30001\nlimit 64/'
refuse 4 "$(line '^limit'): skew 65535 is outside 0 to 30000" 's/^limit .*/skew 65535\n&/; s/^horizontal R 1 /horizontal R 256 /'
refuse 4 "$(line '^horizontal'): horizontal R 256 is outside 0 to 255" 's/^horizontal R 1 /horizontal R 256 /; s/^vertical R 2 /vertical R 256 /'
refuse 4 "$(line '^vertical'): vertical C 64 is outside 0 to 63" 's/^vertical R 2 C 2/vertical C 64 R 2/; s/ setup 6/ setup 30001/'
refuse 4 "$(line '^register'): register setup 30001 is outside 0 to 30000" 's/ setup 6/ setup 30001/; s/^buffer R 3 /buffer R 256 /'
refuse 4 "$(line '^register'): register K 1001 is outside 0 to 1000" 's/^register R 3 K 12/register R 3 K 1001/'
refuse 4 "$(line '^buffer R 1'): buffer 2 K 1001 is outside 0 to 1000" 's/^buffer R 1 K 9/buffer R 1 K 1001/'
refuse 4 "$(($(line '^buffer R 3') + 6)): 7 buffers are given, and at most 6 are taken" 's/^buffer R 3 .*/&\n&\n&\n&\n&\n&/; s/^buffer R 1/buffer R 256/; s/^limit .*/limit 64/'
refuse 5 "$(line '^sink'): sink 128 is not in the plan, whose cells are 0 to 127" 's/^sink.*/sink 128/'
refuse 5 "$(line '^source'): source 65535 is not in the plan, whose cells are 0 to 127" 's/^source.*/source 65535/; s/^sink.*/sink 128/'
refuse 5 "$(line '^sink'): source and sink are both cell 48 (row 3, column 0)" 's/^sink.*/sink 3 0/'
refuse 3 "$(line '# row 7'): cell 127 (row 7, column 15) cuts the wire below, and the last row has none" 's/^\(row .*\)\.\( *# row 7\)/\1._\2/; s/^limit .*/limit 64/; s/^sink.*/sink 128/'
refuse 4 "$(($(line '^buffer R 3') + 6)): 7 buffers are given, and at most 6 are taken" 's/^buffer R 3 .*/&\n&\n&\n&\n&\n&/; s/^\(row .*\)\.\( *# row 7\)/\1._\2/'
told "1,026 visits" 3 "refused 8" "$here/long.txt: the best route has more than 1024 visits, and the program prints at most so many (refusal 8)" \
    tools/route $here/long.txt
edited 's/^limit .*/limit 64/'
told "a refused text on standard input" 3 "refused 4" "standard input:$(line '^limit'): limit 64 is outside 0 to 63 (refusal 4)" \
    sh -c "tools/route - <$work/bad.txt"
