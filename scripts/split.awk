# Writes each goal of an answer to a file of its own, FOLDER/N.goal, with the head of the answer before it, and behind it
# what is said of its launches; FOLDER/N.least has then the option that `check` needs to read that.
#     awk -v room=FOLDER -f split.awk ANSWER
function begin() { goals++; file = room "/" goals ".goal"; printf "%s", head > file; inside = 1; printf "" > (room "/" goals ".least"); close(room "/" goals ".least") }
$1 == "goal" && !tailed { begin() }
!goals { head = head $0 "\n"; next }
$1 == "linked" { exit }
$1 == "tail" { tailed = 1; next }
tailed && ($1 == "least" || $1 == "most") {
    at++
    file = room "/" scheduled[at] ".goal"
    print "tail" >> file
    print "--least" > (room "/" scheduled[at] ".least")
    close(room "/" scheduled[at] ".least")
}
tailed { print >> file; next }
inside { print > file }
$1 == "scheduled" { scheduled[++schedules] = goals }
$1 == "end" { close(file); inside = 0 }
