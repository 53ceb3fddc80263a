# Reads the table of commands and options, words.txt, and does with it what its words say:
#     awk -f near.awk -f words.awk -- TABLE TASK WORD..
# TASK is one of
#     parse WORD..            what the words of ./denali ask for, as assignments of the shell
#     settings FORM WORD..    the command of a file of that form and its options, of which those of the words take the
#                             place, as assignments of the shell
#     values COMMAND WORD..   the values that the command's options then have, as words of awk
#     reads COMMAND           what it reads
#     near WORD               the command that is meant, as a question, if one is near
#     help VERSION COMMAND    the words with a line each, or the options of a command
#     completions SHELL       a file of completions for bash or zsh
#     manual                  the commands and options in mdoc, for the man page
# Words are bytes: it is run with LC_ALL=C.

function trimmed(text) { sub(/^ +/, "", text); sub(/ +$/, "", text); return text }

function read_table(path,    line, cell, count, i, count_of) {
    while ((getline line < path) > 0) {
        if (line !~ /^[a-z]+ *\|/) continue
        count = split(line, cell, /\|/)
        for (i = 1; i <= count; i++) cell[i] = trimmed(cell[i])
        if (cell[1] == "command") {
            command[++commands] = cell[2]; by[cell[2]] = cell[3]; reads[cell[2]] = cell[4]; does[cell[2]] = cell[5]
        } else if (cell[1] == "option") {
            option[++options] = cell[2]; value[cell[2]] = cell[3]; default_of[cell[2]] = cell[4]
            owners[cell[2]] = " " cell[5] " "; bounds[cell[2]] = cell[6]
        } else if (cell[1] == "script") {
            own[++owns] = cell[2]; own_value[owns] = cell[3]; own_does[owns] = cell[4]
        } else if (cell[1] == "file") {
            form[++forms] = cell[2]; settings[cell[2]] = cell[3]; ending[cell[2]] = cell[4]; what[cell[2]] = cell[5]
        }
    }
    close(path)
}

function has(name, asked) { return index(owners[asked], " " name " ") > 0 }

# The default of an option for a command: the column's first, or what it says of this one.
function default_for(name, asked,    part, count, i) {
    count = split(default_of[asked], part, /; */)
    for (i = 2; i <= count; i++) if (part[i] ~ " of " name "$") { sub(/ of .*/, "", part[i]); return part[i] }
    return part[1]
}

function quoted(text) { gsub(/'/, "'\\''", text); return "'" text "'" }

function question(word, list,    name) {
    name = nearest(word, list)
    return name == "" ? "" : "; did you mean " name "?"
}

function options_of(name,    i, list) {
    for (i = 1; i <= options; i++) if (has(name, option[i])) list = list " " option[i]
    return list
}

function all_options(    i, list) {
    for (i = 1; i <= options; i++) list = list " " option[i]
    return list
}

function all_commands(    i, list) {
    for (i = 1; i <= commands; i++) list = list " " command[i]
    return list
}

function own_options() { return " -h --help --version -q -o --unproved --completions --man" }

# What a value may be, in words.
function allowed(asked,    names) {
    names = value[asked]
    if (names ~ /\.\./) { sub(/\.\./, " to ", names); return "a number from " names }
    if (sub(/^list /, "", names)) { gsub(/,/, ", ", names); return "none, all, or with commas between them some of " names }
    gsub(/,/, ", ", names)
    sub(/, [a-z]*$/, " or&", names); sub(/ or, /, " or ", names)
    return names
}

# Why a value is refused, or nothing.
function value_fault(asked, given,    bound, part, count, i, names, seen, meant) {
    if (value[asked] ~ /\.\./) {
        split(value[asked], bound, /\.\./)
        if (given ~ /^(0|[1-9][0-9]*)$/ && length(given) <= 7 && given + 0 >= bound[1] + 0 && given + 0 <= bound[2] + 0) return ""
        return asked " " given ": " allowed(asked) " is wanted"
    }
    names = value[asked]
    if (sub(/^list /, "", names)) {
        if (given == "none" || given == "all") return ""
        gsub(/,/, " ", names)
        count = split(given, part, /,/)
        if (count == 0) return asked " has an empty value: " allowed(asked) " is wanted"
        for (i = 1; i <= count; i++) {
            if (index(" " names " ", " " part[i] " ") == 0 || part[i] == "" || part[i] ~ / /) {
                meant = question(part[i], names " none all")
                return asked " " given ": '" part[i] "' is no family of rules" (meant == "" ? "; " allowed(asked) " is wanted" : meant)
            }
            if (part[i] in seen) return asked " " given ": " part[i] " stands twice"
            seen[part[i]] = 1
        }
        return ""
    }
    if (index("," names ",", "," given ",") > 0 && given != "" && given !~ /,/) return ""
    gsub(/,/, " ", names)
    return asked " " given ": " allowed(asked) " is wanted" question(given, names)
}

# Words in UTF-8 are what the program can have.
function is_utf8(word) {
    gsub(/[\302-\337][\200-\277]/, "", word)
    gsub(/[\340-\357][\200-\277][\200-\277]/, "", word)
    gsub(/[\360-\364][\200-\277][\200-\277][\200-\277]/, "", word)
    return word !~ /[\200-\377]/
}

function refuse(word, why) {
    if (refused == "") { refused = why; unreadable = !is_utf8(word) }
}

# The name of an option without its value, which stands behind it or after `=`; its value in `given`, or `missing`.
function take_option(at, last,    word, cut) {
    word = ARGV[at]
    cut = index(word, "=")
    missing = 0
    taken = at
    if (cut > 0) { given = substr(word, cut + 1); joined = 1; return substr(word, 1, cut - 1) }
    joined = 0
    if ((word in value) && value[word] == "-") return word
    if (at == last) { missing = 1; given = "" } else { taken = at + 1; given = ARGV[at + 1] }
    return word
}

# An option of commands: is it one that the command has, once, with a good value?
function add_option(name, at, last,    asked) {
    asked = take_option(at, last)
    if (!(asked in value)) {
        taken = at
        refuse(asked, "there is no option " asked question(asked, (name == "" ? all_options() : options_of(name)) own_options()))
        return
    }
    if (name != "" && !has(name, asked)) {
        refuse(asked, name " has no option " asked (options_of(name) == "" ? "" : "; it has" options_of(name)))
        return
    }
    if (asked in stands) refuse(asked, asked " stands twice")
    stands[asked] = 1
    if (value[asked] == "-") {
        if (joined) refuse(asked, asked " takes no value")
        given_options = given_options " " asked
        return
    }
    if (missing) { refuse(asked, asked " lacks its value: " allowed(asked)); return }
    if (value_fault(asked, given) != "") refuse(asked given, value_fault(asked, given))
    given_options = given_options " " asked " " given
}

# What the words of ./denali ask for.
function parse(first, last,    at, word, name, files, count, only_files, topic, asked, out, shell) {
    asked = "run"
    for (at = first; at <= last; at++) {
        word = ARGV[at]
        if (only_files) { files = files " " quoted(word); count++; continue }
        if (word == "-h" || word == "--help") asked = "help"
        else if (word == "--version") asked = asked == "help" ? asked : "version"
        else if (word == "--man") asked = "man"
        else if (word == "--completions") {
            asked = "completions"
            shell = at < last ? ARGV[++at] : ""
            if (shell != "bash" && shell != "zsh") refuse(shell, "--completions " shell ": bash or zsh is wanted")
        } else if (word == "-q") print "quiet=1"
        else if (word == "--unproved") print "unproved=1"
        else if (word == "-o") {
            if (at == last || ARGV[at + 1] == "") refuse(word, "-o lacks the name of a file or folder")
            else if (out != "") { refuse(word, "-o stands twice"); at++ }
            else out = ARGV[++at]
        } else if (word == "--") only_files = 1
        else if (word ~ /^-./) { pending[++pendings] = at; take_option(at, last); at = taken }
        else if (name == "" && count == 0 && word == "help") { asked = "help"; topic_next = 1; name = "help" }
        else if (topic_next) {
            topic = word; topic_next = 0
            if (!(word in by)) refuse(word, "there is no command " word question(word, all_commands()))
        } else if (name == "" && count == 0 && (word in by)) name = word
        else { files = files " " quoted(word); count++; if (count == 1) first_file = word }
    }
    if (name == "help") name = topic
    for (at = 1; at <= pendings; at++) add_option(name, pending[at], last)
    if (asked == "help" && topic == "") topic = name
    if (asked == "run" && name == "" && count == 0 && refused == "") refuse("", "there is no command and no file; - is the standard input")
    if (name != "" && asked == "run") {
        if (count > 0 && reads[name] == "nothing") refuse(first_file, name " reads no file: " first_file)
        if (count > 1) refuse(first_file, name " reads one file")
    }
    print "asked=" quoted(asked)
    print "topic=" quoted(topic)
    print "shell=" quoted(shell)
    print "out=" quoted(out)
    print "command=" quoted(name)
    print "by=" quoted(name in by ? by[name] : "")
    print "reads=" quoted(name in reads ? reads[name] : "")
    print "files=" quoted(files)
    print "count=" count + 0
    print "given=" quoted(given_options)
    print "options_end=" quoted(only_files && count == 0 ? "--" : "")
    print "refused=" quoted(refused)
    print "unreadable=" unreadable + 0
    print "commands=" quoted(all_commands())
}

# The command of a form and its options; the words' own options take the place of the same ones.
function merge(asked, first, last,    part, count, i, name, result) {
    count = split(settings[asked], part, " ")
    name = part[1]
    for (i = first; i <= last; i++) { add_option(name, i, last); i = taken }
    for (i = 2; i <= count; i++) {
        if (part[i] in stands) { if (value[part[i]] != "-") i++; continue }
        result = result " " part[i]
        if (value[part[i]] != "-") result = result " " part[++i]
    }
    print "merged=" quoted(name result given_options)
    print "ending=" quoted(ending[asked])
    print "refused=" quoted(refused)
}

# The values of a command's options, with the defaults: -v rounds=4 and so on.
function values(name, first, last,    i, asked, now, result) {
    for (i = 1; i <= options; i++) if (has(name, option[i])) now[option[i]] = default_for(name, option[i])
    for (i = first; i <= last; i++) {
        asked = ARGV[i]
        now[asked] = value[asked] == "-" ? "on" : ARGV[++i]
    }
    for (i = 1; i <= options; i++) if (option[i] in now) result = result " -v " substr(option[i], 3) "=" now[option[i]]
    return result
}

# ---- help

function shown_value(asked,    names) {
    names = value[asked]
    if (names == "-") return ""
    if (names ~ /\.\./) return " N"
    if (names ~ /^list /) return " NAMES"
    return " NAME"
}

function wrapped(text, width, indent,    part, count, i, line, all) {
    count = split(text, part, " ")
    for (i = 1; i <= count; i++) {
        if (line != "" && length(line) + 1 + length(part[i]) > width) { all = all line "\n" indent; line = part[i] }
        else line = line == "" ? part[i] : line " " part[i]
    }
    return all line
}

function help_all(version,    i) {
    print "denali " version ": words for the Alpha 21264 in the fewest cycles, with evidence that fewer don't suffice"
    print ""
    print "    denali FILE.. [OPTION..]              does with each file what it asks for"
    print "    denali COMMAND [OPTION..] [FILE]      a command, on a file or the standard input"
    print "    denali help COMMAND                   the options of a command"
    print ""
    print "What a file asks for:"
    for (i = 1; i <= forms; i++) printf "  %-30s %s\n", what[form[i]] (length(what[form[i]]) > 30 ? "\n" sprintf("%32s", "") : ""), settings[form[i]]
    print "An option behind FILE overrides the same one of this list."
    print ""
    print "Commands:"
    for (i = 1; i <= commands; i++) printf "  %-10s %s\n", command[i], wrapped(does[command[i]], 86, sprintf("%13s", ""))
    print ""
    print "Options of every call:"
    for (i = 1; i <= owns; i++) printf "  %-24s %s\n", own[i] (own_value[i] == "-" ? "" : " " own_value[i]), wrapped(own_does[i], 72, sprintf("%27s", ""))
}

function help_command(name,    i, asked, some, more) {
    print "denali " name " [OPTION..]" (reads[name] == "nothing" ? "" : " [FILE]")
    print ""
    print does[name] ". It reads " reads[name] "."
    for (i = 1; i <= options; i++) {
        asked = option[i]
        if (!has(name, asked)) continue
        if (!some++) print ""
        more = value[asked] == "-" ? "" : "; " allowed(asked) "; " default_for(name, asked) " if it isn't given"
        printf "  %-15s %s\n", asked shown_value(asked), wrapped(bounds[asked] more, 78, sprintf("%18s", ""))
    }
    if (!some) print "\nIt has no options."
}

# ---- completions

function values_of(asked,    names) {
    names = value[asked]
    if (names == "-" || names ~ /\.\./) return ""
    if (sub(/^list /, "", names)) names = "none,all," names
    gsub(/,/, " ", names)
    return names
}

function completions_bash(    i) {
    print "# Completions of denali for bash, made from its table of commands and options."
    print "_denali() {"
    print "    local word=${COMP_WORDS[COMP_CWORD]} before=${COMP_WORDS[COMP_CWORD-1]} command= each"
    print "    for each in \"${COMP_WORDS[@]:1:COMP_CWORD-1}\"; do"
    print "        case $each in"
    printf "        help"
    for (i = 1; i <= commands; i++) printf "|%s", command[i]
    print ") command=$each; break ;;"
    print "        -*) ;;"
    print "        *) command=FILE; break ;;"
    print "        esac"
    print "    done"
    print "    case $before in"
    for (i = 1; i <= options; i++) if (values_of(option[i]) != "")
        print "    " option[i] ") mapfile -t COMPREPLY < <(compgen -W '" values_of(option[i]) "' -- \"$word\"); return ;;"
        else if (value[option[i]] != "-") print "    " option[i] ") return ;;"
    print "    --completions) mapfile -t COMPREPLY < <(compgen -W 'bash zsh' -- \"$word\"); return ;;"
    print "    -o) mapfile -t COMPREPLY < <(compgen -f -- \"$word\"); return ;;"
    print "    esac"
    print "    local options='" substr(own_options(), 2) "'"
    print "    case $command in"
    print "    '') mapfile -t COMPREPLY < <(compgen -W \"help" all_commands() " $options\" -- \"$word\"; compgen -f -- \"$word\"); return ;;"
    print "    help) mapfile -t COMPREPLY < <(compgen -W '" substr(all_commands(), 2) "' -- \"$word\"); return ;;"
    for (i = 1; i <= commands; i++) print "    " command[i] ") options+='" options_of(command[i]) "' ;;"
    print "    FILE) options+='" all_options() "' ;;"
    print "    esac"
    print "    case $word in"
    print "    -*) mapfile -t COMPREPLY < <(compgen -W \"$options\" -- \"$word\") ;;"
    print "    *) mapfile -t COMPREPLY < <(compgen -f -- \"$word\") ;;"
    print "    esac"
    print "}"
    print "complete -o filenames -F _denali denali ./denali"
}

function zsh_text(text) { gsub(/'/, "'\\''", text); gsub(/\[/, "(", text); gsub(/\]/, ")", text); gsub(/:/, "\\:", text); return text }

function zsh_spec(asked,    names) {
    names = values_of(asked)
    return "'" asked "[" zsh_text(bounds[asked]) "]" (value[asked] == "-" ? "" : ":value:" (names == "" ? "" : "(" names ")")) "'"
}

function completions_zsh(    i, j) {
    print "#compdef denali"
    print "# Completions of denali for zsh, made from its table of commands and options."
    print "_denali() {"
    print "    local -a own commands"
    print "    own=("
    print "        {-h,--help}'[prints the words]' '--version[prints the version]' '-q[says nothing on standard error]'"
    print "        '-o[writes the answer there]:file:_files' '--unproved[builds without proofs for this call]'"
    print "        '--completions[prints completions]:shell:(bash zsh)' '--man[prints the man page]'"
    print "    )"
    print "    commands=("
    for (i = 1; i <= commands; i++) print "        '" command[i] ":" zsh_text(does[command[i]]) "'"
    print "        'help:the options of a command'"
    print "    )"
    print "    local place=2"
    print "    while (( place < CURRENT )) && [[ $words[place] == -* ]]; do (( place++ )); done"
    print "    if (( place >= CURRENT )); then"
    print "        if [[ $words[CURRENT] == -* ]]; then _arguments $own; else _describe command commands; _files; fi"
    print "        return"
    print "    fi"
    print "    case $words[place] in"
    print "    help) _describe command commands ;;"
    for (i = 1; i <= commands; i++) {
        printf "    %s) _arguments $own", command[i]
        for (j = 1; j <= options; j++) if (has(command[i], option[j])) printf " %s", zsh_spec(option[j])
        print (reads[command[i]] == "nothing" ? " ;;" : " '*:file:_files' ;;")
    }
    printf "    *) _arguments $own"
    for (j = 1; j <= options; j++) printf " %s", zsh_spec(option[j])
    print " '*:file:_files' ;;"
    print "    esac"
    print "}"
    print "if [ \"$funcstack[1]\" = _denali ]; then _denali \"$@\"; else compdef _denali denali; fi"
}

# ---- the man page

function mdoc(text) { gsub(/\\/, "\\e", text); gsub(/-/, "\\-", text); return text }

function manual(    i, j, k, names) {
    print ".Sh COMMANDS"
    print ".Bl -tag -width Ds"
    for (i = 1; i <= commands; i++) {
        print ".It Cm " command[i]
        print "It " mdoc(does[command[i]]) "."
        print "It reads " mdoc(reads[command[i]]) "."
        names = options_of(command[i])
        gsub(/-/, "\\-", names)
        if (names != "") print "Options:" names "."
    }
    print ".El"
    print ".Sh OPTIONS"
    print "Each option stands once at most, in any order."
    print ".Bl -tag -width Ds"
    for (i = 1; i <= owns; i++) {
        names = own[i]
        gsub(/-/, "\\-", names)
        print ".It " names (own_value[i] == "-" ? "" : " Ar " own_value[i])
        print toupper(substr(own_does[i], 1, 1)) mdoc(substr(own_does[i], 2)) "."
    }
    for (i = 1; i <= options; i++) {
        print ".It " mdoc(option[i]) (value[option[i]] == "-" ? "" : " Ar" shown_value(option[i]))
        print "Of" owners[option[i]] "\\(en"
        print mdoc(bounds[option[i]]) "."
        if (value[option[i]] != "-") {
            print "The value is " mdoc(allowed(option[i])) "."
            print "The default is " mdoc(default_of[option[i]]) "."
        }
    }
    print ".El"
    print ".Sh FILES"
    print "What is done with a file that is named without a command:"
    print ".Bl -tag -width Ds"
    for (i = 1; i <= forms; i++) {
        print ".It " mdoc(what[form[i]])
        print mdoc(settings[form[i]])
    }
    print ".El"
}

BEGIN {
    read_table(ARGV[1])
    task = ARGV[2]
    last = ARGC - 1
    if (task == "parse") parse(3, last)
    else if (task == "settings") merge(ARGV[3], 4, last)
    else if (task == "values") print values(ARGV[3], 4, last)
    else if (task == "reads") print reads[ARGV[3]]
    else if (task == "near") print question(ARGV[3], all_commands())
    else if (task == "help") { if (last >= 4 && ARGV[4] != "") help_command(ARGV[4]); else help_all(ARGV[3]) }
    else if (task == "completions") { if (ARGV[3] == "bash") completions_bash(); else completions_zsh() }
    else if (task == "manual") manual()
    exit
}
