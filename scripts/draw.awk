# Draws an answer, whole or in parts, for ./draw:
#     awk -v form=text|svg|graph|html -v room=FOLDER -f order.awk -f draw.awk ANSWER
# Of html, the folder has files of goal N, where they could be made: N.check, what `check` says of it; N.seconds, how long
# that took; and N.svg, its graph as Graphviz draws it. `version` is the version of the scripts.

# The registers that a word reads, and in `made` the one that it writes, or none.
function registers(text,    parts, count, i, read, regs) {
    made = ""
    regs = text
    gsub(/[(),]/, " ", regs)
    count = split(regs, parts, " ")
    read = ""
    for (i = 2; i <= count; i++) {
        if (parts[i] !~ /^\$/) continue
        if (parts[1] ~ /^ld/ && i == 2) made = parts[i]
        else if (parts[1] !~ /^(ld.*|st.*|beq)$/ && i == count) made = parts[i]
        else read = read " " parts[i]
    }
    return read
}

function forget_goal() {
    split("", word); split("", cycle_at); split("", slot_at); split("", key); split("", input); split("", class); split("", line); split("", taken)
    launches = words = inputs = held = 0
    cycles = places = other = evidence = ""
}

function plural(count, what) { return count " " what (count == 1 ? "" : what ~ /ch$/ ? "es" : "s") }

function add_tail(text) { if (form == "text") print text "\n"; tail = tail text "\n" }

# The words of a proc, linked, with the names of its blocks.
function draw_linked(    i) {
    print "linked: " plural(linked, "word") "\n"
    for (i = 0; i < linked_words; i++) printf "%5d  %-12s  %s\n", 4 * i, i in label ? label[i] : "", linked_text[i]
    printf "%5d  done\n\n", 4 * linked_words
}

function draw_text(    c, s, i, width, cell) {
    width = 8
    for (i = 1; i <= launches; i++) {
        cell[cycle_at[order[i]], slot_at[order[i]]] = word[i]
        if (length(word[i]) > width) width = length(word[i])
    }
    printf "%s: %d cycles\n\n%5s", name, cycles, "cycle"
    for (s = 1; s <= slots; s++) printf "  %-" width "s", slot[s]
    print ""
    for (c = 0; c < cycles; c++) {
        printf "%5d", c
        for (s = 1; s <= slots; s++) printf "  %-" width "s", (c, s) in cell ? cell[c, s] : "."
        print ""
    }
    if (places != "") print "\nat the end:" places
    print ""
}

function escaped(text) {
    gsub(/&/, "\\&amp;", text); gsub(/</, "\\&lt;", text); gsub(/>/, "\\&gt;", text)
    return text
}

# Colors of a picture: fixed ones, or in a page those of its scheme, light or dark.
function paint(fill, stroke) {
    if (form == "html") return " style=\"fill:" hue(fill) (stroke == "" ? "" : ";stroke:" hue(stroke)) "\""
    return " fill=\"" fill "\"" (stroke == "" ? "" : " stroke=\"" stroke "\"")
}

function hue(color) { return color == "none" ? color : "var(--" (color == "black" ? color : "c" substr(color, 2)) ")" }

function box(x, y, text, color) {
    body = body sprintf("<rect x=\"%d\" y=\"%d\" width=\"%d\" height=\"26\" rx=\"4\"%s/>\n", x, y, wide, paint(color, "#334"))
    body = body sprintf("<text x=\"%d\" y=\"%d\" text-anchor=\"middle\"%s>%s</text>\n", x + wide / 2, y + 18, form == "html" ? paint("black") : "", escaped(text))
}

function arrow(x1, y1, x2, y2,    bend) {
    bend = (y2 - y1) / 2
    if (bend < 12) bend = 12
    body = body sprintf("<path d=\"M %d %d C %d %d %d %d %d %d\"%s marker-end=\"url(#head)\"/>\n", x1, y1, x1, y1 + bend, x2, y2 - bend, x2, y2, paint("none", "#678"))
}

# Where a word stands in the picture.
function left_of(i) { return 70 + (column[slot_at[order[i]]] - 1) * (wide + 24) }
function top_of(i) { return down + 106 + cycle_at[order[i]] * 56 }

# The columns of a picture: the slots, and in a page those alone that a launch is in, as wide as its words.
function set_columns(    i, s, used) {
    columns = 0
    for (i = 1; i <= launches; i++) used[slot_at[i]] = 1
    for (s = 1; s <= slots; s++) column[s] = form != "html" || (s in used) ? ++columns : 0
    if (form != "html") return
    wide = 90
    for (i = 1; i <= words; i++) if (8 * length(word[i]) + 16 > wide) wide = 8 * length(word[i]) + 16
}

# One goal below another: `down` is where this one begins.
function draw_svg(    i, j, s, c, parts, count, reads, maker, x, own) {
    split("", maker)
    set_columns()
    if (form == "html") down -= 26
    else body = body sprintf("<text x=\"10\" y=\"%d\" font-weight=\"bold\">%s: %d cycles</text>\n", down + 20, escaped(name), cycles)
    for (i = 1; i <= inputs; i++) { split(input[i], own, " "); box(70 + (i - 1) * (wide + 24), down + 54, own[1] " in " own[2], "#eef"); maker[own[2]] = -i }
    for (s = 1; s <= slots; s++) if (column[s]) body = body sprintf("<text x=\"%d\" y=\"%d\" text-anchor=\"middle\"%s>%s</text>\n", 70 + (column[s] - 1) * (wide + 24) + wide / 2, down + 46, paint("#555"), escaped(slot[s]))
    for (c = 0; c < cycles; c++) {
        body = body sprintf("<line x1=\"10\" y1=\"%d\" x2=\"%d\" y2=\"%d\"%s/>\n", down + 100 + c * 56, 70 + columns * (wide + 24), down + 100 + c * 56, form == "html" ? " style=\"stroke:var(--cddd)\"" : " stroke=\"#ddd\"")
        body = body sprintf("<text x=\"20\" y=\"%d\"%s>%d</text>\n", down + 124 + c * 56, paint("#555"), c)
    }
    for (i = 1; i <= launches; i++) {
        reads = registers(word[i])
        count = split(reads, parts, " ")
        for (j = 1; j <= count; j++) {
            if (!(parts[j] in maker)) continue
            x = left_of(i) + wide * j / (count + 1)
            if (maker[parts[j]] < 0) arrow(70 + (-maker[parts[j]] - 1) * (wide + 24) + wide / 2, down + 80, x, top_of(i))
            else arrow(left_of(maker[parts[j]]) + wide / 2, top_of(maker[parts[j]]) + 26, x, top_of(i))
        }
        if (made != "" && made != "$31") maker[made] = i
    }
    for (i = 1; i <= launches; i++) box(left_of(i), top_of(i), word[i], word[i] ~ /^(ld[qlwb]|st)/ ? "#dfd" : word[i] ~ /^beq/ ? "#fed" : "#fff")
    if (places != "" && form != "html") body = body sprintf("<text x=\"70\" y=\"%d\">at the end:%s</text>\n", down + 122 + cycles * 56, escaped(places))
    down += 150 + cycles * 56
    if (form == "html") down -= 66
    x = 70 + (columns > inputs ? columns : inputs) * (wide + 24)
    if (x > across) across = x
}

function draw_graph(    i, j, c, parts, count, label, first) {
    printf "digraph \"%s\" {\ncompound=true; rankdir=BT; node [shape=box, fontname=\"monospace\", fontsize=11]; edge [color=\"#667788\"];\n", name
    split("", first)
    for (i = 0; i < rows; i++) if (!(class[i] in first)) first[class[i]] = i
    for (c in first) {
        printf "subgraph cluster_%s { label=\"%s\"; style=\"dashed,rounded\"; fontsize=10;", c, c
        for (i = 0; i < rows; i++) if (class[i] == c) {
            split(line[i], parts, " ")
            label = parts[2] ~ /^(input|const|use)$/ ? parts[2] " " parts[3] : parts[2]
            printf " r%d [label=\"%s\"%s];", i, label, launched[i] ? ", style=filled, fillcolor=\"#ddffdd\"" : ""
        }
        print " }"
    }
    for (i = 0; i < rows; i++) {
        count = split(line[i], parts, " ")
        j = parts[2] ~ /^(input|const)$/ ? count + 1 : parts[2] == "use" ? 4 : 3
        for (; j <= count; j++) printf "r%d -> r%d [ltail=cluster_%s];\n", first[parts[j]], i, parts[j]
    }
    for (c in target_of) printf "\"set %s\" [shape=plaintext]; r%d -> \"set %s\" [ltail=cluster_%s];\n", c, first[target_of[c]], c, target_of[c]
    print "}"
}

# ---- the page

# A table of cycles.
function cycle_table(    c, s, i, cell, all) {
    for (i = 1; i <= launches; i++) cell[cycle_at[order[i]], slot_at[order[i]]] = word[i]
    all = "<div class=\"wide\"><table class=\"cycles\"><tr><th>cycle</th>"
    for (s = 1; s <= slots; s++) all = all "<th>" escaped(slot[s]) "</th>"
    all = all "</tr>\n"
    for (c = 0; c < cycles; c++) {
        all = all "<tr><th>" c "</th>"
        for (s = 1; s <= slots; s++) all = all ((c, s) in cell ? "<td class=\"is\">" escaped(cell[c, s]) "</td>" : "<td></td>")
        all = all "</tr>\n"
    }
    return all "</table></div>\n"
}

# The words, in their order.
function word_table(    i, all) {
    all = "<div class=\"wide\"><table><tr><th>word</th><th>instruction</th><th>cycle</th><th>slot</th><th>writes</th></tr>\n"
    for (i = 1; i <= words; i++) {
        registers(word[i])
        all = all "<tr><td>" hex[i] "</td><td>" escaped(word[i]) "</td><td>" cycle_at[order[i]] "</td><td>" escaped(slot[slot_at[order[i]]]) "</td><td>" \
            (made == "" ? word[i] ~ /^st/ ? "memory" : "" : made) "</td></tr>\n"
    }
    return all "</table></div>\n"
}

# The register of each input, and at the end of each value that was set.
function register_lines(    i, all, own, set) {
    for (i = 1; i <= inputs; i++) { split(input[i], own, " "); all = all (i > 1 ? ", " : "") escaped(own[1]) " in <code>" own[2] "</code>" }
    set = places
    gsub(/^  /, "", set); gsub(/  /, ", ", set)
    return (all == "" ? "" : "<p>At the start: " all ".</p>\n") (set == "" ? "" : "<p>At the end: " escaped(set) ".</p>\n")
}

# A file of the room, or nothing.
function file_of(name,    line, all) {
    while ((getline line < (room "/" name)) > 0) all = all line "\n"
    close(room "/" name)
    return all
}

function evidence_line(    what) {
    what = plural(evidence_cycles, "cycle")
    if (evidence == "refute") return "<p>" what " " (evidence_cycles == 1 ? "isn\047t" : "aren\047t") " enough: the answer has a refutation of " plural(evidence_lines, "line") ".</p>\n"
    return ""
}

function outcome_line(    part) {
    split(other, part, " ")
    if (part[1] == "none") return "no schedule in " plural(part[2], "cycle")
    if (part[1] == "noworld") return "axioms and assumptions contradict each other"
    return "undecided at " plural(part[3], "cycle")
}

function add_section(    checked, seconds, graph) {
    checked = file_of(goals ".check")
    seconds = file_of(goals ".seconds")
    sub(/\n/, "", seconds)
    graph = file_of(goals ".svg")
    row = row "<tr><td><a href=\"#goal" goals "\">" escaped(name) "</a></td><td>" (cycles == "" ? outcome_line() : cycles) "</td><td>" (cycles == "" ? "" : words) "</td><td>" seconds "</td></tr>\n"
    section = section "<section id=\"goal" goals "\">\n<h2>" escaped(name) "</h2>\n"
    section = section "<p class=\"sum\">" (cycles == "" ? outcome_line() : plural(cycles, "cycle") ", " plural(words, "word")) "</p>\n"
    if (cycles != "") {
        sort_launches()
        body = ""; down = across = 0
        draw_svg()
        section = section cycle_table() "<h3>Picture</h3>\n<div class=\"wide\">" sprintf("<svg class=\"picture\" style=\"min-width:" int(across * 0.75) "px\" viewBox=\"0 0 " across " " down "\" width=\"%d\" height=\"%d\" role=\"img\" aria-label=\"the schedule of %s\" font-family=\"monospace\" font-size=\"13\">\n", across, down, escaped(name)) body "</svg></div>\n"
        section = section "<h3>Words</h3>\n" (words ? word_table() : "<p>No words are needed.</p>\n") register_lines()
    }
    section = section "<h3>Evidence</h3>\n" evidence_line()
    section = section (checked == "" ? "<p>The page was made without the program: <code>check</code> wasn\047t asked.</p>\n" : "<p><code>check</code> says: <code>" escaped(substr(checked, 1, length(checked) - 1)) "</code></p>\n")
    if (graph != "") section = section "<details><summary>The E-graph: " plural(all_rows, "row") "; those that are launched are green</summary><div class=\"wide graph\">" graph "</div></details>\n"
    section = section "</section>\n"
}

function linked_table(    i, all) {
    all = "<section><h2>Linked</h2>\n<p class=\"sum\">" plural(linked_words, "word") ", all blocks with their branches</p>\n<div class=\"wide\"><table><tr><th>byte</th><th>block</th><th>word</th><th>instruction</th></tr>\n"
    for (i = 0; i < linked_words; i++) all = all "<tr><td>" 4 * i "</td><td>" (i in label ? escaped(label[i]) : "") "</td><td>" linked_hex[i] "</td><td>" escaped(linked_text[i]) "</td></tr>\n"
    return all "</table></div></section>\n"
}

function write_page(    title) {
    title = goals == 1 ? name : plural(goals, "goal")
    print "<!DOCTYPE html>\n<html lang=\"en\"><head><meta charset=\"utf-8\"><meta name=\"viewport\" content=\"width=device-width, initial-scale=1\">"
    print "<title>" escaped(title) " - denali</title>\n<style>"
    print ":root { color-scheme: light dark; --page: #fff; --soft: #f4f5f7; --line: #ccd; --black: #111; --c555: #555; --ceef: #e6ebff; --c334: #446; --cfff: #fff; --cdfd: #d9f5d9; --cfed: #fde8d0; --c678: #567; --cddd: #ddd; --link: #0645ad }"
    print "@media (prefers-color-scheme: dark) { :root { --page: #15171b; --soft: #20242b; --line: #3a414d; --black: #e8e8ea; --c555: #aab; --ceef: #26305c; --c334: #8893b0; --cfff: #262b33; --cdfd: #1e4526; --cfed: #54371a; --c678: #9fb2c8; --cddd: #333a45; --link: #8ab4f8 } .graph svg { filter: invert(0.9) hue-rotate(180deg) } }"
    print "* { box-sizing: border-box } body { margin: 0 auto; max-width: 1100px; padding: 16px; background: var(--page); color: var(--black); font: 16px/1.5 system-ui, sans-serif }"
    print "h1 { font-size: 24px; margin: 0 0 8px } h2 { font-size: 21px; margin: 0; overflow-wrap: anywhere } h3 { font-size: 16px; margin: 18px 0 6px } p { margin: 6px 0; overflow-wrap: anywhere } a { color: var(--link) }"
    print "section { border-top: 1px solid var(--line); padding-top: 16px; margin-top: 24px } .sum, footer { color: var(--c555) }"
    print ".wide { overflow-x: auto; max-width: 100% } table { border-collapse: collapse; margin: 6px 0; font: 13px/1.4 ui-monospace, monospace } th, td { border: 1px solid var(--line); padding: 4px 8px; text-align: left; white-space: nowrap } th { background: var(--soft); font-weight: 600 } .cycles td { min-width: 64px } .cycles .is { background: var(--ceef) }"
    print "@media (max-width: 560px) { body { padding: 12px } table { font-size: 11px } th, td { padding: 3px 4px } .cycles td { min-width: 20px } .picture { max-width: 100%; height: auto } }"
    print "code { font: 13px ui-monospace, monospace } svg { display: block } details { margin-top: 12px } summary { cursor: pointer } footer { margin-top: 32px; font-size: 13px }"
    print "</style></head><body>"
    print "<svg width=\"0\" height=\"0\" aria-hidden=\"true\"><defs><marker id=\"head\" markerWidth=\"8\" markerHeight=\"8\" refX=\"7\" refY=\"4\" orient=\"auto\"><path d=\"M 0 0 L 8 4 L 0 8 z\" style=\"fill:var(--c678)\"/></marker></defs></svg>"
    print "<h1>" (goals == 1 ? "An answer" : plural(goals, linked ? "block" : "goal")) "</h1>"
    print "<p class=\"sum\">Words for the Alpha 21264" (library == "" ? "" : ", with the rules of " escaped(library)) (version_of == 3 ? ", registers by live ranges" : "") ".</p>"
    if (goals > 1) print "<div class=\"wide\"><table><tr><th>" (linked ? "block" : "goal") "</th><th>cycles</th><th>words</th><th>seconds of check</th></tr>\n" row "</table></div>"
    printf "%s", section
    if (linked) printf "%s", linked_table()
    if (tail != "") { gsub(/\n/, "</p>\n<p>", tail); print "<section><h2>The fewest words</h2>\n<p>" tail "</p></section>" }
    print "<footer>Made by denali " version " from the text of the answer.</footer>\n</body></html>"
}

BEGIN { wide = 190; down = 0; slots = split("U0 U1 L0 L1", slot); for (i = 1; i <= slots; i++) number[slot[i]] = i }
$1 == "table" && $2 == "own" { slots = 0 }
$1 == "slot" { slot[++slots] = $2; number[$2] = slots }
$1 == "denali" { version_of = $2 }
$1 == "library" { library = $0; sub(/^library /, "", library) }
$1 == "goal" { forget_goal(); name = $2; split("", launched); split("", target_of) }
$1 == "rows" { all_rows = rows = left = $2; next }
left > 0 { i = rows - left--; class[i] = $1; op[i] = $2; line[i] = $0; next }
$1 == "in" { input[++inputs] = $2 " $" $3; taken[$3] }
$1 == "guard" { held = $3 == "held" }
$1 == "set" { target_of[$2] = $3 }
$1 == "scheduled" { cycles = $2 }
$1 ~ /^(none|spent|noworld)$/ { other = $0 }
$1 == "launch" { launches++; key[launches] = sprintf("%03d %d %02d", $2, group($4, $5), number[$3]); cycle_at[launches] = $2; slot_at[launches] = number[$3]; launched[$4] = 1 }
$1 == "word" && linked { linked_text[linked_words++] = substr($0, 15); linked_hex[linked_words - 1] = $2; next }
$1 == "word" { hex[words + 1] = $2; text = $3; for (i = 4; i <= NF; i++) text = text " " $i; word[++words] = text }
$1 == "where" { places = places "  " $2 " in $" $3 }
$1 == "refute" || $1 == "lemmas" { evidence = $1; evidence_cycles = $2; evidence_lines = $3 }
$1 == "end" { goals++ }
$1 == "end" && form == "graph" && rows > 0 { draw_graph(); rows = 0 }
$1 == "end" && other != "" && form == "text" { print name ": " other "\n" }
$1 == "end" && cycles != "" && form ~ /^(text|svg)$/ {
    sort_launches()
    if (form == "text") draw_text()
    else draw_svg()
}
$1 == "end" && cycles != "" { scheduled[++schedules] = name; cycles_of[schedules] = cycles }
$1 == "end" && form == "html" { add_section() }
$1 == "linked" { linked = $2 }
$1 == "block" && linked { label[$3 / 4] = $2 }
$1 == "least" { tails++; add_tail(scheduled[tails] ": no schedule in " plural(cycles_of[tails], "cycle") " has fewer than " plural($2, "launch")) }
$1 == "most" { tails++; add_tail(scheduled[tails] ": it isn't known whether fewer than " plural($2, "launch") " suffice in " plural(cycles_of[tails], "cycle")) }
END {
    if (form == "text" && linked) draw_linked()
    if (form == "html") write_page()
    if (form != "svg") exit
    printf "<svg xmlns=\"http://www.w3.org/2000/svg\" width=\"%d\" height=\"%d\" font-family=\"monospace\" font-size=\"13\">\n", across, down
    print "<defs><marker id=\"head\" markerWidth=\"8\" markerHeight=\"8\" refX=\"7\" refY=\"4\" orient=\"auto\"><path d=\"M 0 0 L 8 4 L 0 8 z\" fill=\"#678\"/></marker></defs>"
    printf "<rect width=\"100%%\" height=\"100%%\" fill=\"white\"/>\n%s</svg>\n", body
}
