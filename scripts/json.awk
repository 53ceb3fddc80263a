# Writes an answer as JSON.
#     awk -f order.awk -f json.awk ANSWER
function quoted(text) { gsub(/\\/, "\\\\", text); gsub(/"/, "\\\"", text); return "\"" text "\"" }

function member(name, value) { return quoted(name) ": " value }

function list(text) { return text == "" ? "[]" : "[" text "]" }

function add(text, item) { return text == "" ? item : text ", " item }

function lines_of(text, indent) { return text == "" ? "[]" : "[\n" indent "  " text "\n" indent "]" }

function add_line(text, item, indent) { return text == "" ? item : text ",\n" indent "  " item }

# The register that a word writes, or nothing.
function written(text,    parts, count, i) {
    gsub(/[(),]/, " ", text)
    count = split(text, parts, " ")
    if (parts[1] ~ /^(st|beq)/) return ""
    return substr(parts[1] ~ /^ld/ ? parts[2] : parts[count], 2)
}

function launches_as_json(    i, all, item) {
    sort_launches()
    for (i = 1; i <= launches; i++) {
        item = member("cycle", cycle[order[i]]) ", " member("slot", quoted(slot[order[i]])) ", " member("row", row[order[i]])
        item = item ", " member("register", written(word[i]) == "" ? "null" : written(word[i])) ", " member("word", quoted(hex[i])) ", " member("text", quoted(word[i]))
        all = add_line(all, "{" item "}", "      ")
    }
    return lines_of(all, "      ")
}

function forget_goal(    i) {
    for (i in op) delete op[i]
    for (i in taken) delete taken[i]
    launches = words = rows = left = held = 0
    inputs = pool = sets = word_list = places = outcome = cycles = limits = rounds = stop = guard = refuted = lemmas = world = ""
}

function add_goal(    text) {
    text = member("name", quoted(name)) ",\n      " member("outcome", quoted(outcome)) ",\n      " member("cycles", cycles == "" ? "null" : cycles)
    if (limits != "") text = text ",\n      " limits
    if (world != "") text = text ",\n      " world
    if (outcome != "noworld") {
        text = text ",\n      " member("rounds", rounds) ",\n      " member("stop", quoted(stop)) ",\n      " member("rows", rows)
        text = text ",\n      " member("inputs", list(inputs)) ",\n      " member("pool", list(pool)) ",\n      " member("guard", guard == "" ? "null" : quoted(guard)) ",\n      " member("sets", list(sets))
        if (outcome == "scheduled") text = text ",\n      " member("launches", launches_as_json()) ",\n      " member("words", lines_of(word_list, "      ")) ",\n      " member("places", list(places))
        text = text ",\n      " member("refutation", refuted == "" ? "null" : refuted)
        if (lemmas != "") text = text ",\n      " member("lemmas", lemmas)
    }
    goal[++goals] = text
    if (outcome == "scheduled") scheduled[++schedules] = goals
}

BEGIN { slots = split("U0 U1 L0 L1", named, " "); for (i = 1; i <= slots; i++) number[named[i]] = i }
left > 0 { op[rows - left] = $2; left--; next }
/^[0-9-]/ { next }
$1 == "denali" { head = member("denali", $2) }
$1 == "encoding" { head = head ",\n  " member("encoding", $2) }
$1 == "table" { head = head ",\n  " member("table", quoted($2)); if ($2 == "own") slots = 0 }
$1 == "slot" { number[$2] = ++slots }
$1 == "library" { for (i = 2; i <= NF; i++) families = add(families, quoted($i)) }
$1 == "goal" { forget_goal(); name = $2 }
$1 == "noworld" { outcome = "noworld"; world = member("equal", "[" quoted($3) ", " quoted($4) "]") }
$1 == "rounds" { rounds = $2; stop = $4 }
$1 == "rows" { rows = left = $2 }
$1 == "in" { inputs = add(inputs, "{" member("name", quoted($2)) ", " member("register", $3) "}"); taken[$3] }
$1 == "pool" { for (i = 2; i <= NF; i++) pool = add(pool, $i) }
$1 == "guard" { guard = $3; held = $3 == "held" }
$1 == "set" { sets = add(sets, "{" member("name", quoted($2)) ", " member("register", $4 == "" ? "null" : $4) "}") }
$1 == "scheduled" || $1 == "none" { outcome = $1; cycles = $2 }
$1 == "spent" { outcome = "spent"; cycles = $3; limits = member("budget", quoted($2)); if ($2 == "size") limits = limits ",\n      " member("variables", $4) ",\n      " member("clauses", $5) }
$1 == "launch" { launches++; cycle[launches] = $2; slot[launches] = $3; row[launches] = $4; key[launches] = sprintf("%03d %d %02d", $2, group($4, $5), number[$3]) }
$1 == "linked" { linked = 1 }
$1 == "word" && linked { linked_list = add_line(linked_list, "{" member("hex", quoted($2)) ", " member("text", quoted(substr($0, 15))) "}", "    "); next }
$1 == "word" { words++; hex[words] = $2; word[words] = substr($0, 15); word_list = add_line(word_list, "{" member("hex", quoted($2)) ", " member("text", quoted(substr($0, 15))) "}", "      ") }
$1 == "where" { places = add(places, "{" member("name", quoted($2)) ", " member("register", $3) "}") }
$1 == "refute" { refuted = "{" member("cycles", $2) ", " member("lines", $3) "}" }
$1 == "lemmas" { lemmas = "{" member("cycles", $2) ", " member("lines", $3) "}" }
$1 == "end" { add_goal() }
$1 == "least" { tails++; goal[scheduled[tails]] = goal[scheduled[tails]] ",\n      " member("least", "{" member("launches", $2) ", " member("proved", "true") "}") }
$1 == "most" { tails++; goal[scheduled[tails]] = goal[scheduled[tails]] ",\n      " member("least", "{" member("launches", $2) ", " member("proved", "false") "}") }
$1 == "block" { blocks = add(blocks, "{" member("name", quoted($2)) ", " member("byte", $3) "}") }
END {
    print "{\n  " head ",\n  " member("library", list(families)) ",\n  \"goals\": ["
    for (i = 1; i <= goals; i++) print "    {\n      " goal[i] "\n    }" (i < goals ? "," : "")
    print "  ]" (linked ? ",\n  \"linked\": {\n    " member("words", lines_of(linked_list, "    ")) ",\n    " member("blocks", list(blocks)) "\n  }" : "")
    print "}"
}
