# Splits a text of dist/ for an archive, so that a program which calls one function gets the code of its family only:
#
#   awk -v folder=FOLDER -f c/split.awk TEXT
#
# It writes a text for each family of exported functions (blake2b, blake2b_many, tree and so on) and for each function
# that the programs call too, in FOLDER, and prints their names without `.s`. A text has the functions that it needs, in their order, except those that
# another text exports. So functions that several families need are there several times, and no name is seen that was
# not seen before.
function add(block) { if (!(block in chosen)) { chosen[block]; waiting[++count] = block } }
BEGIN { FS = "\t" }
/^\tvj_(function|cold|export|shared|constants|data|relocated)\t/ {
    begins[++block] = NR
    if ($2 ~ /function|cold|export|shared/) place[$3] = block
    if ($2 == "vj_shared") group[block] = $3
    if ($2 == "vj_export") {
        split($3, words, "_")
        group[block] = words[3] ($3 ~ /_many_/ ? "_many" : "")
    }
    if (block in group) groups[group[block]]
}
/^\.L[A-Za-z0-9_.]+:/ { place[substr($1, 1, length($1) - 1)] = block }
{
    line[NR] = $0
    ends[block] = NR
}
/_/ {
    gsub(/[^A-Za-z0-9_.]+/, " ")
    total = split($0, words, " ")
    for (i = 1; i <= total; i++) if (words[i] ~ /[._].*_/) needs[block] = needs[block] " " words[i]
}
END {
    for (name in groups) {
        count = 0
        split("", chosen)
        for (i = 1; i <= block; i++) if (group[i] == name) add(i)
        while (count > 0) {
            total = split(needs[waiting[count--]], words, " ")
            for (i = 1; i <= total; i++) if (words[i] in place && group[place[words[i]]] == "") add(place[words[i]])
        }
        file = folder "/" name ".s"
        for (i = 1; i <= block; i++) if (i in chosen)
            for (j = begins[i]; j <= ends[i]; j++) print line[j] > file
        close(file)
        print name
    }
}
