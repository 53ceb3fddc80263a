# Says of what the program wrote what to do next: after an answer that isn't a schedule, after rounds that were stopped
# by the limit on rows, and of a code that isn't known to be its goal. Where `terminal` is 1, also a line a goal.
#     awk -f notes.awk -v command=NAME -v terminal=0|1 -v rounds=N -v nodes=N .. OUTPUT
# The numbers are the options that the command had.

function say(text) { print name ": " text }

function plural(count, what) { return count " " what (count == 1 ? "" : "s") }

# The library, where it isn't on, is worth a try.
function with_library(text) { return library == "all" ? text : text (text == "" ? "" : ", or ") "--library all" }

function higher(option, now, greatest) { return now + 0 >= greatest ? "" : option " (" now " now, " greatest " at most)" }

function joined(a, b) { return a == "" ? b : b == "" ? a : a ", or " b }

function solved_notes() {
    if (outcome == "none")
        say("no schedule fits in " plural(cycles_of, "cycle") ": " (higher("--cycles", cycles, 24) == "" ? "" : "raise " higher("--cycles", cycles, 24) ", or ") \
            "give more registers" joined_rounds())
    else if (outcome == "conflicts")
        say(known() plural(cycles_of, "cycle") " undecided after " plural(conflicts, "conflict") ": raise " \
            with_library(joined(higher("--conflicts", conflicts, 1000000), pick == "activity" ? "" : "--pick activity")))
    else if (outcome == "size")
        say(known() "the clauses for " plural(cycles_of, "cycle") " are too many: make the goal smaller, or its graph, by a lower --nodes (" nodes " now)")
    else if (outcome == "noworld")
        say("its axioms and assumptions contradict each other: by them " first " would be " second)
    else if (terminal && outcome == "scheduled")
        print name ": " plural(cycles_of, "cycle") ", " plural(words, "word") (fewest == "" ? "" : fewest)
    if (full && outcome != "noworld" && !(outcome == "size"))
        say("the rules could find more: raise " with_library(higher("--nodes", nodes, 4096)))
}

function joined_rounds() {
    return (higher("--rounds", rounds, 16) == "" ? "" : ", or more " higher("--rounds", rounds, 16)) (library == "all" ? "" : ", or --library all")
}

# What the solver knew before its budget was spent.
function known() { return cycles_of == 0 ? "" : "not in " plural(cycles_of - 1, "cycle") (cycles_of > 1 ? " or fewer" : "") " (refuted); " }

function is_answer() { return command ~ /^(solve|proc|improve)$/ }

# Lines of numbers, of which an answer has many, say nothing here.
/^[0-9-]/ { next }
is_answer() && $1 == "goal" { name = $2; outcome = ""; full = words = 0; goals[++count] = name; next }
is_answer() && $1 == "noworld" { outcome = "noworld"; first = $3; second = $4 }
is_answer() && $1 == "rounds" { full = $4 == "full" }
is_answer() && $1 == "scheduled" { outcome = "scheduled"; cycles_of = $2 }
is_answer() && $1 == "none" { outcome = "none"; cycles_of = $2 }
is_answer() && $1 == "spent" { outcome = $2; cycles_of = $3 }
is_answer() && $1 == "word" { words++ }
is_answer() && $1 == "end" { solved_notes(); if (outcome == "scheduled") scheduled[++schedules] = name }
is_answer() && $1 == "least" { tails++; if (terminal) print scheduled[tails] ": no schedule in as many cycles has fewer than " plural($2, "word") }
is_answer() && $1 == "most" {
    name = scheduled[++tails]
    say("whether fewer than " plural($2, "word") " suffice isn't known" ($3 == "spent" ? ": raise " higher("--conflicts", conflicts, 1000000) : ""))
}
is_answer() && $1 == "linked" { if (terminal) print "linked: " plural($2, "word") }

command == "verify" && $1 == "unknown" {
    name = $2
    place = $7 == "trap" ? "word " $8 " may trap: say by (assume (and P 7) 0) or the like which addresses are multiples" \
        : "the " ($7 == "set" ? "set " $8 : $7) " isn't shown to be the goal's"
    if ($7 == "trap") say(place)
    else if ($6 == "full") say(place ": raise " with_library(higher("--nodes", nodes, 4096)))
    else if ($6 == "rounds") say(place ": raise " with_library(higher("--rounds", rounds, 16)))
    else say(place ", and the rules find nothing more: an axiom may show it" (library == "all" ? "" : ", or --library all"))
}
command == "verify" && $1 == "noworld" { name = $2; say("its axioms and assumptions contradict each other: by them " $3 " would be " $4) }

command == "cycles" && $1 == "none" { name = $2; say("its words don't fit in " plural($3, "cycle") (cycles + 0 < 24 ? ": raise " higher("--cycles", cycles, 24) : "")) }
command == "cycles" && $1 == "spent" { name = $2; cycles_of = $3; say(known() plural($3, "cycle") " undecided: raise " higher("--conflicts", conflicts, 1000000)) }
