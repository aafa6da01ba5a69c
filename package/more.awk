# awk -f more.awk -- PROGRAM HELP REFUSALS STATUS LINE CALLED COMMAND WORD..
#
# Prints one line more about a refusal, for a user at a terminal: for words the first that isn't understood, what would be right
# there, and the nearest known word; for a file what docs/REFUSALS.md says of its fault, with the line's text; for a board with no
# card to choose how far its play has come. It knows jobs and options from help.txt, and says nothing if it finds nothing.

function say(text) {
    gsub(/[\001-\037\177]/, "?", text)
    print called ": " text
    exit
}

function shown(word) {
    return "\"" (length(word) > 60 ? substr(word, 1, 57) "..." : word) "\""
}

# ---- the jobs and options of help.txt

function read_help(    line, words, n, i, part, keyword) {
    while ((getline line < help) > 0) {
        if (line ~ /^= /) {
            n = split(line, words, " ")
            part = n == 3 ? words[2] " " words[3] : words[2]
            if (n == 3) {
                program_of[words[3]] = words[2]
                if (words[2] == program) { jobs = jobs (jobs == "" ? "" : ", ") words[3]; is_job[words[3]] = 1 }
            }
            keyword = ""
        } else if (part == "options") {
            read_option(line)
        } else {
            if (line ~ /^(Required|Allowed):/) keyword = substr(line, 1, 1)
            if (line == "") keyword = ""
            if (keyword != "") note_options(part, keyword, line)
        }
    }
    known["--job"] = 1
}

function note_options(part, keyword, line,    rest) {
    rest = line
    while (match(rest, /--[a-z-]+/)) {
        option = substr(rest, RSTART, RLENGTH)
        rest = substr(rest, RSTART + RLENGTH)
        use[part, option] = keyword
        takes[part] = takes[part] " " option
        if (index(part, program " ") == 1) known[option] = 1
    }
}

function read_option(line,    rest, option) {
    rest = line
    if (line !~ /^  --/) return
    while (match(rest, /--[a-z-]+( [A-Z]+)?/)) {
        option = substr(rest, RSTART, RLENGTH)
        rest = substr(rest, RSTART + RLENGTH)
        value_of[option] = ""
        if (index(option, " ")) {
            value = substr(option, index(option, " ") + 1)
            option = substr(option, 1, index(option, " ") - 1)
            value_of[option] = value
        } else {
            is_flag[option] = 1
        }
        if (match(rest, /^ +[0-9]+ to [0-9]+:/)) {
            n = split(substr(rest, RSTART, RLENGTH - 1), words, " ")
            least[option] = words[1]; most[option] = words[3]
        }
    }
}

# ---- the nearest word

function distance(a, b,    i, j, row, old, corner, best) {
    for (j = 0; j <= length(b); j++) row[j] = j
    for (i = 1; i <= length(a); i++) {
        corner = row[0]; row[0] = i
        for (j = 1; j <= length(b); j++) {
            old = row[j]
            best = corner + (substr(a, i, 1) != substr(b, j, 1))
            if (row[j] + 1 < best) best = row[j] + 1
            if (row[j - 1] + 1 < best) best = row[j - 1] + 1
            row[j] = best; corner = old
        }
    }
    return row[length(b)]
}

# Of two that are equally near the one with the word's own first letter comes first, and then the first in order of letters.
function rank(word, it,    i) {
    for (i = 1; substr(word, i, 1) == "-"; i++) {}
    return (substr(word, i, 1) == substr(it, i, 1) ? "a" : "b") it
}

# The nearest of a set of words, as a question, or nothing if none is near.
function nearest(word, set,    it, best, least_of, far) {
    best = ""; least_of = length(word) / 2
    if (least_of > 3) least_of = 3
    word = tolower(word)
    for (it in set) {
        far = distance(word, it)
        if (far > least_of || best != "" && far == least_of && rank(word, best) <= rank(word, it)) continue
        best = it; least_of = far
    }
    return best == "" ? "" : "; did you mean " best "?"
}

# ---- words

function is_more(a, b) {
    sub(/^0+/, "", a); sub(/^0+/, "", b)
    return length(a) != length(b) ? length(a) > length(b) : (a "x") > (b "x")
}

function judge_option(i, word, name) {
    if (word !~ /^-/) {
        if (word in is_job) say("word " i ", " shown(word) ", isn't understood here: write --job " word)
        say("word " i ", " shown(word) ", isn't understood: an option begins with --" nearest("--" word, known))
    }
    if (!(name in known)) {
        near = program_of_option(name) != "" ? "; it is an option of " program_of_option(name) : nearest(name, known)
        say("word " i ", " shown(word) ", isn't an option" near)
    }
    if (name in given) say("word " i " gives " name " a second time")
    if ((name in is_flag) && index(word, "=")) say(name " has no value")
}

function program_of_option(name,    it, parts) {
    for (it in use) {
        split(it, parts, SUBSEP)
        if (parts[2] == name) return substr(parts[1], 1, index(parts[1], " ") - 1)
    }
    return ""
}

function judge_words(    i, word, name) {
    for (i = 1; i <= count; i++) {
        word = word_at[i]
        name = word ~ /=/ ? substr(word, 1, index(word, "=") - 1) : word
        judge_option(i, word, name)
        if (name in is_flag) given[name] = ""
        else if (index(word, "=")) given[name] = substr(word, index(word, "=") + 1)
        else if (i == count) say(name " has no value: it takes " what(name))
        else given[name] = word_at[++i]
    }
    judge_job()
    if (program == "alphamu") judge_uses()
    for (name in given) if (name != "--job") judge_value(name, given[name])
    for (name in given) if (value_of[name] == "CONDITION") hint = "a defender's hand is told as in \"15-17 hcp, 5+ hearts, balanced, holds SK, lacks HA\"; "
    say(hint "what the job takes: " command " --help " given["--job"])
}

function what(name) {
    return name == "--job" ? "one of " jobs : (name in least) ? least[name] " to " most[name] : value_of[name] == "FILE" ? "the name of a file" : "a " tolower(value_of[name])
}

function judge_job(    job) {
    if (!("--job" in given)) say("--job is missing: it takes one of " jobs)
    job = given["--job"]
    if (job in is_job) return
    if (job in program_of) say(shown(job) " is a job of " program_of[job])
    say(shown(job) " is no job: it is one of " jobs nearest(job, is_job))
}

function judge_uses(    job, part, it, options, n, i) {
    job = given["--job"]; part = program " " job
    n = split(takes[part], options, " ")
    for (i = 1; i <= n; i++)
        if (use[part, options[i]] == "R" && !(options[i] in given)) say("--job " job " needs " options[i] ": " what(options[i]))
    for (i = 1; i <= count; i++) {
        it = word_at[i]; sub(/=.*/, "", it)
        if (it in given && it != "--job" && !((part, it) in use)) say("--job " job " doesn't take " it "; it takes" takes[part])
    }
    if (("--shards" in given ? given["--shards"] : 16) * ("--room" in given ? given["--room"] : 16384) > 262144)
        say("--shards times --room is more than 262144: give a smaller --room")
}

function judge_value(name, value) {
    if (name in is_flag || !(name in least) && value_of[name] != "FILE") return
    if (value_of[name] == "FILE") {
        if (value == "" || value ~ /^-/) say(name " takes the name of a file, not " shown(value))
        return
    }
    if (value !~ /^[0-9]+$/ || is_more(least[name], value) || is_more(value, most[name]))
        say(name " takes " least[name] " to " most[name] ", not " shown(value))
    if (name == "--nodes" && given["--job"] == "prove" && is_more(value, "268435456")) say("for prove --nodes takes 1 to 268435456, not " shown(value))
}

# ---- files

# The word that is given for an option, or nothing.
function word_for(option,    i) {
    for (i = 1; i <= count; i++) {
        if (word_at[i] == option) return word_at[i + 1]
        if (index(word_at[i], option "=") == 1) return substr(word_at[i], length(option) + 2)
    }
    return ""
}

function plain(text) {
    while (match(text, /\[[^]]*\]\([^)]*\)/)) {
        link = substr(text, RSTART, RLENGTH)
        text = substr(text, 1, RSTART - 1) substr(link, 2, index(link, "](") - 2) substr(text, RSTART + RLENGTH)
    }
    gsub(/[`*]/, "", text)
    return text
}

# What docs/REFUSALS.md says in the row whose first cell has this text.
function row_of(key,    line, cells, n, i, text) {
    while ((getline line < refusals) > 0) {
        if (line !~ /^\| /) continue
        n = split(line, cells, / \| /)
        if (!index(cells[1], key)) continue
        for (i = 2; i <= n; i++) { sub(/ \|$/, "", cells[i]); text = text (text == "" ? "" : ": ") plain(cells[i]) }
        break
    }
    close(refusals)
    return text
}

function row_of_status(    line, cells, n) {
    while ((getline line < refusals) > 0)
        if (index(line, "| " status " |") == 1) { n = split(line, cells, / \| /); sub(/ \|$/, "", cells[n]); break }
    close(refusals)
    return n ? plain(cells[n]) : ""
}

# The word of a line that holds a fault, if it can be told, and otherwise the line.
function at_fault(text, kind,    words, n, i, it) {
    if (kind != "PlayCard" && kind != "Deal RankLetter") return text
    sub(/^\[Deal "/, "", text); sub(/"\]$/, "", text)
    n = split(text, words, " ")
    for (i = 1; i <= n; i++) {
        it = words[i]
        if (kind == "PlayCard" ? it !~ /^([SHDCshdc][AKQJT2-9akqjt]|[-+*^$=?!;{])/ : it ~ /[^AKQJT2-9akqjt.:-]/ && it !~ /^[NESW]:[AKQJT2-9.]*$/) return it
    }
    return text
}

# What is wrong with a file as a whole.
function tell_form(name, line, text, number) {
    if (line ~ /^\377\376/ || line ~ /^\376\377/) say(name " is UTF-16: save it as UTF-8 or plain text")
    if (line ~ /\r./ && number == 1) say("the lines of " name " end with a carriage return alone: save it with line feeds")
    if (text ~ /\032/) say("line " number " has a Ctrl-Z, an old mark for the end of a file: take it out")
    if (text ~ /^\357\273\277/) say(name " begins with a mark of order: save it as UTF-8 without one")
}

function tell_fault(option,    name, number, kind, text, line, first, n, empty, deal, row) {
    name = word_for(option); number = refusal; kind = refusal
    sub(/^.* line /, "", number); sub(/:.*/, "", number)
    sub(/^.*: /, "", kind)
    while ((getline line < name) > 0) {
        sub(/\r$/, "", line)
        if (++n == 1) first = line
        if (n == number + 0) text = line
        if (line ~ /^[ \t]*$/ && !empty) empty = n
        if (line ~ /^\[Deal / && !deal) deal = n
    }
    close(name)
    tell_form(name, first, text, number + 0)
    if (kind == "NoDeal" && deal && empty && empty < deal) say("an empty line ends a game: take out line " empty ", which is above the Deal tag in line " deal)
    sub(/^BadLine /, "Deal ", kind)
    row = row_of("`" kind "`")
    if (row != "") say((text == "" ? "" : shown(at_fault(text, kind)) ": ") row)
}

function tell_count() {
    if (word_for("--draw") != "") say("no layout fits the play and the conditions, which count cards already played: loosen a condition, or see whether a defender's card is mistyped; an ending must show the defenders' hands")
    say("list writes up to 256 layouts: ask after more tricks, or let alphamu_study --job draw take some; if none fits, see whether a defender's card is mistyped; an ending must show the defenders' hands")
}

function tell_turn(    name, line, is_play, n, i, words, cards, empty, began, play) {
    if (word_for("--job") == "review") say("declarer's side decides nothing there: nothing was played, or --from is a later trick")
    at_card = "--at" in known ? "; or name the card with --at" : ""
    if (word_for("--at") word_for("--board") != "") say("at that moment it isn't declarer's turn: it is a defender's, or the play is over" at_card)
    name = word_for("--deal")
    while ((getline line < name) > 0) {
        sub(/\r$/, "", line)
        at++
        if (line ~ /^[ \t]*$/) { if (began && !empty) empty = at; is_play = 0; continue }
        if (line ~ /^\[/) { began = 1; is_play = 0 }
        if (line ~ /^\[Play /) { if (!play) play = at; is_play = !empty; continue }
        if (!is_play || line ~ /^[%;]/) continue
        gsub(/\{[^}]*\}/, "", line)
        n = split(line, words, " ")
        for (i = 1; i <= n; i++) if (words[i] ~ /^[SHDC][AKQJT2-9]/) cards++; else if (words[i] == "*") is_play = 0
    }
    close(name)
    if (play && empty && empty < play) say("an empty line ends a game: take out line " empty ", which is above the Play tag in line " play)
    if (!play) say("there is no Play section, so a defender is to lead: write the cards played so far")
    if (cards >= 52) say("all 52 cards are played: write - for the card in question and the rest of its row, and take out the rows below" at_card)
    say("after the " (cards + 0) " cards of the Play section it isn't declarer's turn: it is a defender's, or the play is over; end the section just before a card of declarer or dummy" at_card)
}

BEGIN {
    program = ARGV[1]; help = ARGV[2]; refusals = ARGV[3]; status = ARGV[4]; refusal = ARGV[5]; called = ARGV[6]; command = ARGV[7]
    for (count = 0; 8 + count < ARGC; count++) word_at[count + 1] = ARGV[8 + count]
    read_help()
    if (status == 2) judge_words()
    else if (status == 4) tell_fault("--deal")
    else if (status == 5) tell_fault("--layouts")
    else if (status == 11 && refusal ~ / line /) tell_fault("--report")
    else if (status == 6) tell_turn()
    else if (status == 12) tell_count()
    else if (row_of_status() != "") say(row_of_status())
}
