# Says in plain words what the rows of an answer mean: FILE:LINE: message, as editors read it. ./sorts -e runs it.
# It reads the text (part=text), to look at the bytes of a line, and then the rows (part=rows). NAME is the text's name.
# In the text that ./sorts hands over, bytes of zero are replaced by ones.
# Every sentence is true in every case that gives its row; docs/TEXT.md has the cases.

BEGIN {
    BYTE_ORDER_MARK = "\357\273\277"
    TOO_LONG = 52
    LONGEST_SHOWN = 40

    for (byte = 2; byte < 256; byte++)
        number_of[sprintf("%c", byte)] = byte
    number_of["\001"] = "0 or 1"

    a_name = "a name is made of letters, digits, _ and -, and a lone - is none"
    a_term = "a term is NAME, @NAME or =SORT:NAME, and a lone - is no name"
    form["sort"] = "sort NAME; " a_name
    form["fun"] = "fun NAME SORT... OUTPUT; " a_name
    form["ctor"] = "ctor NAME SORT... OUTPUT; " a_name
    form["prim"] = "prim NAME MASK simple SORT... OUTPUT, or prim NAME MASK equal COMMON LENGTH OUTPUT; " \
        "MASK is 0 to 255, a number has at most four digits, and behind equal a - stands for what is left out"
    form["global"] = "global NAME SORT; " a_name
    form["ctx"] = "ctx NUMBER; NUMBER is 0 to 7, in at most four digits"
    form["atom"] = "atom HEAD TERM...; HEAD is a name, " a_term
    form["eq"] = "eq TERM TERM; " a_term
    form["let"] = "let VARIABLE HEAD TERM...; VARIABLE and HEAD are names, " a_term
    form["set"] = "set HEAD TERM... VALUE; HEAD is a name, VALUE is a term, " a_term
    form["change"] = "change HEAD TERM...; HEAD is a name, " a_term
    form["union"] = "union TERM TERM; " a_term
    form["bind"] = "bind VARIABLE TERM; VARIABLE is a name, " a_term
    form["panic"] = "panic; no word stands behind it"
    form["local"] = "local VARIABLE SORT; " a_name

    reason[52] = "the text has more than 32,768 bytes; leave out what the rule does not use"
    reason[50] = "this line is not well formed"
    reason[51] = "a sort or a global here is not declared above, or this line declares a name a second time"
    reason[21] = "a constructor cannot be set; write let and union, or declare it with fun"
    reason[7] = "this atom has no terms; add them, the output last"
    reason[20] = "the head is not declared above, or no form of it is permitted in this context"
    reason[8] = "a form of the head that may be used here has no sorts, or LENGTH 0; correct its declaration"
    reason[10] = "a limit is passed: too many sorts, declarations, sorts written on declarations, globals, terms, " \
        "words for terms on this line, or records; docs/TEXT.md has the limits"
}

function say(number, message) {
    print ENVIRON["NAME"] ":" number ": " message
}

function first_word(text) {
    return substr(text, 1, index(text " ", " ") - 1)
}

# Whether a terminal can show a word or sign.
function can_be_shown(word) {
    return word ~ /^[!-~]+$/
}

# A word in quotes, or its beginning.
function shown(word) {
    return "'" substr(word, 1, LONGEST_SHOWN) "'" (length(word) > LONGEST_SHOWN ? "..." : "")
}

function named(sign) {
    return can_be_shown(sign) ? "the sign " shown(sign) : "byte " number_of[sign]
}

# What is certainly wrong with a line that is not well formed; else how such a line is written.
function malformed(text) {
    if (substr(text, 1, length(BYTE_ORDER_MARK)) == BYTE_ORDER_MARK)
        return "it begins with a byte order mark, three bytes that the editor must not write"
    if (text ~ /\r$/)
        return "it ends in a carriage return; let the editor write line feeds alone"
    if (index(text, "\r"))
        return "there is a carriage return in it; let the editor write line feeds alone"
    if (index(text, "\t"))
        return "there is a tab in it; words are parted by one space"
    if (text ~ /^ /)
        return "it begins with a space"
    if (text ~ / $/)
        return "it ends in a space"
    if (index(text, "  "))
        return "there are two spaces together in it; words are parted by one"
    if (!(first_word(text) in form) && can_be_shown(first_word(text)))
        return "no line begins with the word " shown(first_word(text)) "; capitals count, and there are no comments"
    if (match(text, /[^A-Za-z0-9_@=: -]/))
        return named(substr(text, RSTART, 1)) " at column " RSTART " has no place in a line"
    return "it must be written " form[first_word(text)]
}

# What a row about one form says of which: a conflict as a whole, or one of the forms below a row none.
function lead() {
    if (forms == 0)
        return "conflict: "
    told++
    return forms == 1 ? "the form that was left: " : "form " told " of " forms ": "
}

# How many words stand behind a head that takes this many terms: let and change do not write the output there.
function behind_head(text, takes) {
    return first_word(text) ~ /^(let|change)$/ ? takes : takes + 1
}

part == "text" { line[FNR] = $0; next }

FNR == 1 { answer = $1 }

answer == "ok" { exit }

answer == "refused" {
    message = "refused: " reason[$2]
    if ($2 == 50)
        message = message ": " malformed(line[$4])
    say($2 == TOO_LONG ? 1 : $4, message)
    exit
}

FNR == 1 { next }

$1 == "unsorted" {
    say($2, "open: from here on '" $3 "' must have a sort, and no statement decides which; " \
        "add one that does, or a local line")
}

$1 == "none" { forms = $2; waiting = 1; next }

waiting {
    waiting = 0
    if (forms == 1)
        say($2, "conflict: the one form of the head that was left does not fit")
    else
        say($2, "conflict: none of the " forms " forms of the head that are permitted here fits")
}

$1 == "mismatch" {
    say($2, lead() "'" $3 "' would have two sorts, " $4 " and " $5 "; the fault may be on another line")
}

$1 == "arity" {
    say($2, lead() "'" $3 "' has a wrong number of terms; it takes " $4 ", and its output, so " \
        behind_head(line[$2], $4) " must stand behind it here")
}
