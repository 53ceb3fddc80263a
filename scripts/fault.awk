# Tells a fault as compilers do: the file, its line and column, what is wrong and what is wanted there, the line, and a
# caret under the place.
#     awk -f near.awk -f fault.awk -v place=BYTE -v kind=KIND -v reads=WHAT -v byte=NUMBER -v size=BYTES TEXT
# WHAT is what the command reads, as the table of commands says it; NUMBER the byte at the place, or nothing at the end;
# BYTES the length of the text. FAULT_FILE of the environment names the file.
# Words are bytes: it is run with LC_ALL=C. The text is read up to the end of the list at the place, not further.

function shown(text) { return length(text) > 40 ? substr(text, 1, 37) "..." : text }

function named(text) { return "'" shown(text) "'" }

# The name of a list that is meant, as a question, where one is near.
function near(word, list,    name) {
    name = word in other_name ? other_name[word] : nearest(word, list)
    return name == "" ? "" : "; did you mean '" name "'?"
}

function add_operators(names, operands,    part, count, i) {
    count = split(names, part, " ")
    for (i = 1; i <= count; i++) arity[part[i]] = operands
    operators = operators " " names
}

function set_up(    i, count, part) {
    instructions = "addq subq addl subl s4addq s8addq s4subq s8subq s4addl s8addl s4subl s8subl mulq mull umulh cmpeq" \
        " cmplt cmple cmpult cmpule cmpbge and bis xor bic ornot eqv sll srl sra extbl extwl extll extql extwh extlh extqh" \
        " insbl inswl insll insql inswh inslh insqh mskbl mskwl mskll mskql mskwh msklh mskqh zap zapnot"
    add_operators(instructions, 2)
    add_operators("sextb sextw neg not", 1)
    add_operators("selectb select ldbu ldwu ldl", 2)
    add_operators("storeb store stb stw stl", 3)
    instructions = instructions " sextb sextw lda ldah ldq_u stq_u ldbu ldwu ldl stb stw stl beq"
    # What other languages and assemblers call them.
    count = split("add addq sub subq mul mulq or bis shl sll shr srl sar sra lsl sll lsr srl asr sra load select ldq select" \
        " stq store eq cmpeq lt cmplt le cmple ult cmpult ule cmpule andnot bic xnor eqv nand bic", part, " ")
    for (i = 1; i < count; i += 2) other_name[part[i]] = part[i + 1]
    count = split("+ addq - subq * mulq & and | bis ^ xor ~ not < cmplt > cmplt = cmpeq ! not", part, " ")
    for (i = 1; i < count; i += 2) sign_name[part[i]] = part[i + 1]
    split("select ldbu ldwu ldl", part, " ")
    for (i = 1; i <= 4; i++) operand_form[part[i]] = "M ADDRESS"
    split("store stb stw stl", part, " ")
    for (i = 1; i <= 4; i++) operand_form[part[i]] = "M ADDRESS WORD"
    operand_form["selectb"] = "WORD INDEX"
    operand_form["storeb"] = "WORD INDEX BYTE"
    form["goal"] = "(goal NAME .. (set NAME TERM))"
    form["op"] = "(op NAME COUNT), with 1 to 4 operands"
    form["axiom"] = "(axiom (NAME ..) TERM TERM)"
    form["in"] = "(in NAME $N)"
    form["pool"] = "(pool $N ..)"
    form["let"] = "(let NAME TERM)"
    form["assume"] = "(assume TERM TERM)"
    form["when"] = reads == "a proc" ? "(when TERM BLOCK)" : "(when TERM)"
    form["set"] = reads == "a proc" ? "(set NAME TERM)" : "(set NAME TERM) or (set NAME $N TERM), and of the memory (set M TERM)"
    form["machine"] = "(machine (slots ..) (cross N) (ops ..) ..)"
    form["slots"] = "(slots (NAME CLUSTER) ..)"
    form["cross"] = "(cross N)"
    form["ops"] = "(ops LATENCY (SLOT ..) INSTRUCTION ..)"
    form["proc"] = "(proc NAME (var NAME $N) .. (block NAME ..) ..)"
    form["var"] = "(var NAME $N)"
    form["block"] = "(block NAME (set NAME TERM) .. (go TARGET)), with (when TERM TARGET) before the sets if it has a guard"
    form["go"] = "(go TARGET)"
    form["lift"] = "(lift NAME (WORD ..) (out $N ..)), perhaps with (pool $N ..) behind"
    form["out"] = "(out $N ..)"
    form["code"] = "(code NAME (WORD ..) (at NAME $N) ..), with an 'at' for each set that is no memory"
    form["at"] = "(at NAME $N)"
    order["goal"] = "in pool let assume when set"
    order["proc"] = "var pool block"
    order["block"] = "when set go"
    order["lift"] = "out pool"
    order["machine"] = "slots cross ops"
    most["goal"] = 64; most["op"] = 16; most["axiom"] = 64; most["let"] = 256; most["in"] = 16; most["assume"] = 16
    most["set"] = 16; most["var"] = 16; most["block"] = 64; most["lift"] = 64; most["code"] = 64
}

# ---- the text of forms, token by token

function line_column(at,    i) {
    for (i = NR; i > 1 && begins[i] > at; i--) ;
    return i ":" at - begins[i] + 1
}

# A name that a list of its kind gives: where it stood first, for "was given before".
function note_name(at, text,    head_of) {
    head_of = head[depth]
    if (head_of ~ /^(in|let|op|var|block|set|goal|lift|at)$/ && element[depth] == 1) {
        if (head_of == "goal" || head_of == "code" || head_of == "lift" || head_of == "proc") { here = ""; forget_names() }
        if (head_of == "op") { declared = declared " " text; declared_place[text] = at }
        else if (head_of == "goal" || head_of == "lift") { goals = goals " " text; if (!(text in goal_place)) goal_place[text] = at }
        else {
            if (head_of == "block") blocks = blocks " " text
            if (head_of == "set") { sets = sets " " text }
            if (head_of ~ /^(in|let|var)$/) { here = here " " text }
            if (!((kind_of(head_of), text) in name_place)) name_place[kind_of(head_of), text] = at
        }
    }
    if (text ~ /^\$/ && head_of ~ /^(in|pool|var|out|set)$/) {
        if (!((head_of == "out" ? "out" : "register", text) in name_place)) name_place[head_of == "out" ? "out" : "register", text] = at
    }
    if (head_of == "op" && element[depth] == 2) arity[last_name] = text + 0
    last_name = text
}

function kind_of(head_of) { return head_of ~ /^(in|let|var)$/ ? "term" : head_of }

function forget_names(    at) {
    for (at in name_place) delete name_place[at]
    sets = ""
}

# One token, which begins at a byte. Gives 1 when nothing more is needed.
function token(at, text,    i) {
    if (found && depth < found_depth) return 1
    if (at >= place && !found) {
        found = 1
        found_text = text
        found_depth = text == "(" ? depth + 1 : depth
        parent = depth ? head[depth] : ""
        index_at = depth ? element[depth] + 1 : 0
        grand = depth > 1 ? head[depth - 1] : ""
        before = depth ? last_head[depth] : last_top
        found_open = depth ? open_at[depth] : -1
        found_at = at
        found_top = depth ? head[1] : ""
        if (text == ")") return 1
    }
    if (text == "(") {
        if (depth) element[depth]++
        depth++
        head[depth] = ""; element[depth] = -1; open_at[depth] = at; last_head[depth] = ""
        return 0
    }
    if (text == ")") {
        if (!depth) return 1
        if (found && depth == found_depth) { found_count = element[depth] }
        if (depth > 1) last_head[depth - 1] = head[depth]; else last_top = head[1]
        depth--
        return found && depth < found_depth
    }
    if (!depth) return found
    element[depth]++
    if (element[depth] == 0) {
        head[depth] = text
        if (found && found_text == "(" && depth == found_depth && open_at[depth] == found_at) found_head = text
        # A list that only a goal or the like has, inside another: the one around it isn't closed.
        if (depth > 1 && !misplaced && text ~ /^(in|pool|let|assume|set|goal|axiom|op|when|var|block|go|code|lift)$/ && !belongs(text, head[depth - 1])) {
            misplaced = line_column(open_at[depth]); misplaced_head = text
            misplaced_in = head[depth - 1]; misplaced_around = line_column(open_at[depth - 1])
        }
        return 0
    }
    if (!found) note_name(at, text)
    return found && found_text != "(" && depth == found_depth
}

function belongs(inner, outer) {
    if (inner ~ /^(in|assume|let)$/) return outer == "goal"
    if (inner == "set") return outer ~ /^(goal|block)$/
    if (inner == "pool") return outer ~ /^(goal|proc|lift)$/
    if (inner == "when") return outer ~ /^(goal|block)$/
    if (inner ~ /^(var|block)$/) return outer == "proc"
    if (inner == "go") return outer == "block"
    return 0
}

# The tokens of a line, in pieces, since a line may be long.
function tokens(line, from,    at, piece, long, i) {
    at = 1
    long = length(line)
    while (at <= long) {
        piece = substr(line, at, 400)
        while (piece != "") {
            if (match(piece, /^[ \t\r]+/)) { }
            else if (match(piece, /^[()]/)) { if (token(from + at - 1, substr(piece, 1, 1))) return 1 }
            else if (match(piece, /^[A-Za-z0-9_$]+/)) {
                if (RLENGTH == length(piece) && RLENGTH < 400 && at + RLENGTH <= long) break
                if (token(from + at - 1, substr(piece, 1, RLENGTH))) return 1
            } else if (piece ~ /^;/) return 0
            else { RLENGTH = 1; if (from + at - 1 >= place) return 1 }
            at += RLENGTH
            piece = substr(piece, RLENGTH + 1)
        }
    }
    return 0
}

# ---- what is wrong, in words

function byte_message(    sign) {
    if (byte == "") return "the text ends here"
    if (byte == 13) return "a carriage return can't stand here: lines end with a line feed alone, as after tr -d '\\r'"
    if (byte == 127 && place == 0) return "the byte 0x7F can't stand here: this is an object file, which ./improve-object takes"
    if (byte + 0 < 32 || byte + 0 > 126) {
        if (is_lines && byte == 9) return "a tab can't stand here: one space separates words"
        return sprintf("the byte 0x%02X can't stand here: %s", byte, is_lines ? "lines are of printable ASCII" : "outside comments a text is of ASCII")
    }
    sign = sprintf("%c", byte + 0)
    if (is_lines) return "'" sign "' can't stand here"
    if (sign == "-") return "'-' can't stand here: a number has no sign; write (neg N), or (subq A B) for A - B"
    if (sign == "/") return "'/' can't stand here: there is no division, and a comment begins with ;"
    if (sign == "#") return "'#' can't stand here: a comment begins with ;"
    if (sign == ",") return "',' can't stand here: blanks alone separate names and numbers"
    if (sign in sign_name) return "'" sign "' can't stand here: operators have names, as (" sign_name[sign] (sign ~ /[~!]/ ? " A)" : " A B)")
    if (index("[]{}", sign)) return "'" sign "' can't stand here: lists stand in ( and )"
    if (sign == "." ) return "'.' can't stand here: numbers are whole, and names are of letters, digits and _"
    return "'" sign "' can't stand here: names are of letters, digits and _"
}

# What stands in the place of the fault, as it would be quoted.
function quoted_place() {
    if (!found) return "the end"
    if (found_text == "(") return "'(" (found_head == "" ? ")" : shown(found_head)) "'"
    return named(found_text)
}

function wants_text() {
    if (reads == "a proc") return "a proc is wanted, " form["proc"]
    if (reads == "lifts") return "lifts are wanted, " form["lift"]
    if (reads == "goals and codes") return "goals and then codes are wanted, " form["goal"] " and " form["code"]
    return "a goal is wanted, " form["goal"]
}

function form_message(    keywords, part, i, count, rank_here, rank_before) {
    if (!found) {
        if (reads == "goals and codes" && goals != "") return "the text ends without a code: " form["code"]
        return "the text ends here: " wants_text()
    }
    # At the top of the text.
    if (parent == "" && found_open < 0) {
        if (found_text != "(") return quoted_place() " can't stand at the top: " wants_text()
        if (found_head ~ /^(machine|op|axiom)$/ && reads ~ /^goals/ && (before == "goal" || before == "axiom" && found_head != "axiom" || found_head == "machine" && before != ""))
            return "'(" found_head "' stands too late: the order is machine, op, axiom, goal"
        if (found_head == "goal" && reads ~ /^goals/) {
            if (before == "code") return "a goal behind a code: all goals stand before the codes"
            return found_count < 1 ? "the goal lacks its name: " form["goal"] : "the goal has no set: " form["goal"] " is wanted"
        }
        if (found_head == "code" && reads == "goals") return "codes are for verify: ./denali verify, or ./denali FILE"
        if (found_head == "proc" && reads != "a proc") return "a proc is for the command proc: ./denali proc, or ./denali FILE"
        if (found_head == "lift" && reads != "lifts") return "lifts are for improve, cycles and lift: ./denali FILE improves them"
        if (found_head == "goal") return "goals are for solve: ./denali solve, or ./denali FILE"
        if ((found_head in form) && found_head ~ /^(proc|lift|code|op|axiom|machine)$/) return "the form of '(" found_head "' is " form[found_head]
        return quoted_place() " can't stand at the top" near(found_head, "goal op axiom machine code proc lift") (near(found_head, "goal op axiom machine code proc lift") == "" ? ": " : " ") wants_text()
    }
    # A part of a goal, a proc, a block, a lift or a machine.
    if ((parent in order) && found_text == "(" && index_at > 1 || parent == "machine" && found_text == "(") {
        keywords = order[parent]
        if (index(" " keywords " ", " " found_head " ") && found_head != "") {
            count = split(keywords, part, " ")
            for (i = 1; i <= count; i++) { if (part[i] == found_head) rank_here = i; if (part[i] == before) rank_before = i }
            gsub(/ /, ", ", keywords)
            if (rank_before > rank_here) return "'(" found_head "' stands too late: the order is " keywords
            if (rank_before == rank_here && found_head ~ /^(pool|when|go|cross|slots|out)$/) return "a second '(" found_head "': one is allowed"
            if (found_head == "pool" && parent != "lift" || found_head == "out") return "a pool is of registers alone: (pool $N ..)"
            if (found_head == "block" && found_count > 0) return "the form of a block is " form["block"]
            return "the form is " form[found_head]
        }
        gsub(/ /, ", ", keywords)
        return quoted_place() " can't stand in a " parent near(found_head, order[parent]) (near(found_head, order[parent]) == "" ? ":" : "") " its parts are, in this order, " keywords
    }
    if (parent in form) {
        if (index_at == 1 && parent ~ /^(goal|op|in|let|set|proc|var|block|lift|code|at|go)$/) return quoted_place() " is no name: the form is " form[parent]
        if (parent == "set" && found_text ~ /^\$/) return found_text " can't stand here: the form is " form["set"]
        if (parent ~ /^(in|var|at|pool|out)$/ && found_text !~ /^\$/) return quoted_place() " is no register: the form is " form[parent] ", with a register from $0 to $30"
        if (parent == "op") return quoted_place() " is no count: the form is " form["op"]
        if (found_text ~ /^\$/) return found_text " is a register: a term is a name, a number or (OPERATOR TERM ..); give the register a name by (in NAME " found_text ")"
        if (found_text == "(" && found_head == "") return "an empty list can't stand here: a term is a name, a number or (OPERATOR TERM ..)"
        return quoted_place() " can't stand here: the form is " form[parent]
    }
    if (found_text ~ /^\$/) return found_text " is a register: a term is a name, a number or (OPERATOR TERM ..); give the register a name by (in NAME " found_text ")"
    if (index_at == 0) return quoted_place() " is no operator's name: a term is a name, a number or (OPERATOR TERM ..)"
    if (found_text == "(" && found_head == "") return "an empty list can't stand here: a term is a name, a number or (OPERATOR TERM ..)"
    return quoted_place() " can't stand here: a term is a name, a number or (OPERATOR TERM ..)"
}

function unknown_message(    known) {
    if (parent == "ops") return "unknown instruction " named(found_text) near(found_text, instructions) (near(found_text, instructions) == "" ? ": the instructions are those of docs/GOALS.md" : "")
    if (parent == "go" || parent == "when" && reads == "a proc" && index_at == 2) return "unknown block " named(found_text) ": a block's name or 'done' is wanted" near(found_text, blocks " done")
    if (parent == "code") return "unknown goal " named(found_text) ": a code has the name of a goal before it" near(found_text, goals)
    if (parent == "at") return "unknown set " named(found_text) ": an 'at' names a set of the goal" near(found_text, sets)
    if (parent == "set" && index_at == 1) return "unknown variable " named(found_text) ": a set of a block names a variable or M" near(found_text, here " M")
    if (index_at == 0) {
        known = near(found_text, operators declared)
        return "unknown name " named(found_text) (known == "" ? ": no operator has it, and no (op " shown(found_text) " COUNT) stands before" : known)
    }
    known = near(found_text, here " M" (parent == "axiom" || found_top == "axiom" ? "" : " "))
    if (known != "") return "unknown name " named(found_text) known
    if ((" " operators " ") ~ (" " found_text " ")) return "unknown name " named(found_text) ": an operator stands first in a list of its own, (" found_text " ..)"
    if (found_top == "axiom") return "unknown name " named(found_text) ": an axiom's names are its variables"
    return "unknown name " named(found_text) ": " (here == "" ? "nothing but M has a name here" : "the names here are" shown_names(here) " and M")
}

function shown_names(list) { sub(/^ /, "", list); gsub(/ /, ", ", list); return " " (length(list) > 60 ? substr(list, 1, 57) "..." : list) }

function twice_message(    key, which) {
    if (found_text ~ /^\$/) {
        key = parent == "out" ? "out" : "register"
        if ((key, found_text) in name_place) return found_text " was given before, at " line_column(name_place[key, found_text]) ": each register stands once"
        if (parent == "pool") return found_text " can't be in the pool: an input or an 'out' has it"
        return found_text " was given before: each register stands once"
    }
    if (found_text == "M" && parent != "set") return "'M' can't be given: it is the memory at the start"
    if (parent == "block" && found_text == "done") return "'done' can't name a block: it is the end"
    if (parent ~ /^(in|let|var|op)$/ || found_top == "axiom") {
        if (index(" " operators " ", " " found_text " ")) return named(found_text) " can't be given: an operator has this name"
        if (index(declared " ", " " found_text " ")) return named(found_text) " was given before, as an operator, at " line_column(declared_place[found_text])
    }
    if (parent ~ /^(goal|lift)$/ && (found_text in goal_place)) return named(found_text) " was given before, at " line_column(goal_place[found_text]) ": each " parent " has a name of its own"
    which = kind_of(parent)
    if ((which, found_text) in name_place) return named(found_text) " was given before, at " line_column(name_place[which, found_text])
    if (found_top == "axiom") return named(found_text) " stands twice, or may not be a variable"
    return named(found_text) " was given before, or may not be used"
}

function plural(count, what) { return count " " what (count == 1 ? "" : "s") }

function sort_message(    wants_memory) {
    wants_memory = (parent ~ /^(select|ldbu|ldwu|ldl|store|stb|stw|stl)$/ && index_at == 1)
    if (parent == "set" || parent == "assume") {
        if (parent == "assume") return quoted_place() " and the term before it are not of one sort: both sides are words or both memories"
        wants_memory = last_name == "M"
    }
    if (wants_memory) return quoted_place() " is a word, and a memory is wanted: M, or a term that begins with store, stb, stw or stl"
    return quoted_place() " is a memory, and a word is wanted" (found_text == "M" ? ": (select M A) is the word of M at the address A" : "")
}

function arity_message() {
    return named(found_head) " takes " (found_head in arity ? plural(arity[found_head], "operand") : "another count of operands") \
        ", and " (found_count == 1 ? "1 is" : found_count " are") " given" (found_head in operand_form ? ": (" found_head " " operand_form[found_head] ")" : "")
}

function limit_message() {
    if (is_lines) return "too many: a program has at most 4096 words and 4096 places"
    if (parent == "op" && index_at == 2) return quoted_place() " is no count of operands: an operator has 1 to 4"
    if (found_text == "(" && (found_head in most) && (parent in order || parent == "" )) return "too many: at most " most[found_head] " " (found_head == "op" ? "operators" : found_head "s") (parent == "" ? "" : " in a " parent)
    if (grand == "axiom") return "too many variables: an axiom has at most 8"
    if (found_top == "code") return "too many words: a code has at most 4096"
    if (found_top == "lift" && parent == "out") return "too many sets: at most 16 registers of 'out' are written"
    if (found_top == "lift") return "too many: a lift has at most 256 words, 16 inputs and 16 addresses that have to be multiples"
    return "more than the limits allow, which docs/GOALS.md has"
}

function word_message() {
    if (reads == "lifts") return quoted_place() " is no instruction that the program knows, or a branch, which a lift can't have"
    return quoted_place() " is no instruction that the program knows, or a branch that isn't the only one and leads one word past the last"
}

function slot_message() {
    if (found_text == "(" && found_head == "slots") return "there are no slots: (slots (NAME CLUSTER) ..) is wanted"
    if (grand == "slots") return found_text " is no cluster: clusters are 0 to 3"
    if (parent == "slots") return "this slot was given before, or is the ninth: one to eight slots of different names"
    if (found_text == "(") return "no slot is named: (ops LATENCY (SLOT ..) INSTRUCTION ..)"
    return named(found_text) " is no slot of the table, or stands twice"
}

# ---- lines

function line_message(    word, first) {
    word = at_line
    if (!line_found || at_line == "") {
        if (reads == "a program") return "an empty line can't stand here: word HEX, reg N WORD or mem ADDRESS WORD is wanted"
        return total == 0 ? "the text is empty: an answer is wanted, as solve writes it" : line_found ? "an empty line can't stand here" : "the text ends too early: a line is missing here"
    }
    split(word, first, " ")
    if (word ~ /^fault [0-9]+ [A-Z]/) return "this is what is said of a faulty text, and no answer"
    if (word ~ /  / || word ~ /^ / || word ~ / $/) return "one space separates two words of a line, and none stands before or behind"
    if (unended) return "the last line doesn't end with a line feed"
    if (reads == "a program") {
        if (first[1] == "word") return "word HEX is wanted, of eight hexadecimal digits that are an instruction; words stand before reg and mem, and a branch leads one word past the last"
        if (first[1] == "reg") return "reg N WORD is wanted, N from 0 to 30 and each once, WORD below 2^64, before all mem"
        if (first[1] == "mem") return "mem ADDRESS WORD is wanted, in numbers below 2^64, each place once"
        return "a line '" shown(first[1]) " ..' is none of word HEX, reg N WORD and mem ADDRESS WORD"
    }
    if (place == 0) return word ~ /^\(/ || word ~ /^;/ ? "this isn't an answer but a text of goals or the like: ./denali FILE answers it" : "this isn't an answer: its first line is 'denali 2' or 'denali 3'"
    if (first[1] ~ /^[0-9]+$/) return "the line of numbers isn't one that can stand here"
    if (first[1] == "linked") return "here the linked words of proc begin, which aren't checked: ./denali FILE leaves them out"
    if (first[1] == "tail") return "here begins what solve --least says of launches: check --least reads it"
    if (first[1] ~ /^(denali|encoding|table|slot|cross|inst|library|goal|noworld|rounds|rows|entry|in|pool|guard|set|scheduled|none|spent|launch|word|where|refute|lemmas|end|least|most)$/)
        return "a line '" first[1] " ..' can't stand here, or not so: docs/ANSWERS.md has the lines and their order"
    return "no line of an answer begins with " named(first[1])
}

function row_message() { return "this row can't stand in a graph: CLASS OP OPERAND.. is wanted, with an operator and as many operands as it takes" }

function class_message() { return "a class is named that isn't there, or that is a memory where a word is wanted or the other way round" }

function message() {
    if (kind == "TooLong") return "the text is too long: at most " place " bytes are read"
    if (kind == "BadByte") return byte_message()
    if (kind == "Unclosed") return "this ( is never closed" (misplaced ? ": '(" misplaced_head "' at " misplaced " stands inside '(" misplaced_in "' of " misplaced_around ", which lacks a )" : ": " depth " ) " (depth == 1 ? "is" : "are") " missing at the end")
    if (kind == "Unopened") return "this ) closes nothing: there is one too many, here or before"
    if (kind == "BadNumber") return named(found_text) (found_text ~ /^([0-9]+|0x[0-9A-Fa-f]+)$/ ? " is too large: numbers are below 2^64" : " is no number: a number is decimal, or 0x and hexadecimal digits; a name begins with a letter or _")
    if (kind == "TooDeep") return "this ( stands inside 64 others: give a part of the term a name by (let NAME TERM)"
    if (kind == "BadForm") return form_message()
    if (kind == "UnknownName") return unknown_message()
    if (kind == "Twice") return twice_message()
    if (kind == "WrongArity") return arity_message()
    if (kind == "WrongSort") return sort_message()
    if (kind == "BadRegister") return named(found_text) (parent == "at" && found_text ~ /^\$[0-9]$|^\$[12][0-9]$|^\$30$/ ? " isn't the register that the goal's set names" : " can't be used: registers are $0 to $30")
    if (kind == "BadAxiom") return found_text != "(" && parent != "axiom" ? named(found_text) " doesn't stand on the axiom's left side, which has to have each variable of the right side" : index_at == 2 ? quoted_place() " can't be the left side of an axiom: it is an application, (OPERATOR TERM ..)" : "the left side of an axiom is an application, and has each variable of its right side"
    if (kind == "LimitPassed") return limit_message()
    if (kind == "BadSlot") return slot_message()
    if (kind == "BadLatency") return quoted_place() (parent == "cross" ? " is no delay between clusters: 0 to 4" : " is no latency: 1 to 16")
    if (kind == "OpTwice") return named(found_text) " was named before in the table"
    if (kind == "BadRow") return row_message()
    if (kind == "BadClass") return class_message()
    if (kind == "BadLine") return line_message()
    if (kind == "BadWord") return word_message()
    return "a fault of the kind " kind
}

# The line and the caret. Of a long line the part around the place; a control byte is shown as `?`, a tab as a space.
function show(line, column,    from, caret, i) {
    from = 1
    if (length(line) > 110) {
        from = column > 70 ? column - 60 : 1
        line = (from > 1 ? "..." : "") substr(line, from, 100) (length(line) > from + 99 ? "..." : "")
        column = column - from + 1 + (from > 1 ? 3 : 0)
    }
    gsub(/\t/, " ", line)
    gsub(/[\001-\037\177]/, "?", line)
    caret = substr(line, 1, column - 1)
    # A character of several bytes takes one column.
    gsub(/[\200-\277]/, "", caret)
    gsub(/./, " ", caret)
    print line
    print caret "^"
}

BEGIN { file = ENVIRON["FAULT_FILE"]; set_up(); is_lines = reads == "an answer" || reads == "a program"; offset = 0; row_of = 0 }
{
    begins[NR] = offset
    if (NR > 3 && is_lines) delete begins[NR - 3]
    if (place >= offset && place <= offset + length($0)) { row_of = NR; at_line = $0; at_begin = offset; line_found = 1 }
    total += length($0) + 1
    if (is_lines) { if (offset > place) exit }
    else if (kind != "TooLong" && tokens($0, offset)) exit
    offset += length($0) + 1
}
END {
    if (kind == "TooLong") { print file ": " message(); exit }
    if (!row_of) { row_of = NR + 1; at_line = ""; at_begin = offset; line_found = 0 }
    unended = place >= at_begin && total > size
    print file ":" row_of ":" place - at_begin + 1 ": " message()
    show(at_line, place - at_begin + 1)
}
