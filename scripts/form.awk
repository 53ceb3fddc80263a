# Says what a text is, by its first line or by its lists at the top: goal, proc, lift or code, answer, tail for an answer
# of --least, linked for one of proc, or program. What is none of these is taken for goals, where its first fault is told.
#     awk -f form.awk TEXT
NR == 1 && /^denali / { form = "answer" }
NR == 1 && /^fault [0-9]+ [A-Z]/ { form = "answer"; exit }
form == "answer" {
    if ($0 == "tail") form = "tail"
    if (/^linked /) form = "linked"
    if (form == "answer") next
    exit
}
form == "" && /^(word|reg|mem) / { form = "program"; exit }
{
    sub(/;.*/, "")
    count = split($0, part, "(")
    for (i = 1; i <= count; i++) {
        if (i > 1) { depth++; wanted = depth == 1 }
        if (wanted && match(part[i], /[A-Za-z0-9_$]+/)) {
            head = substr(part[i], RSTART, RLENGTH)
            wanted = 0
            if (form == "" && head ~ /^(goal|proc|lift)$/) form = head
            if (form == "goal" && head == "code") { form = "code"; exit }
            if (form == "proc" || form == "lift") exit
        } else if (form == "" && part[i] ~ /[^ \t\r]/ && !depth) form = "goal"
        depth -= gsub(/\)/, "", part[i])
        if (depth < 0) depth = 0
    }
}
END { print (form == "" ? "goal" : form) }
