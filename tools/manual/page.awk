# The manual page, from the help of the program and then of each of its commands. Variables: version, day.

# a text as roff reads it
function roff(text) {
    gsub(/\\/, "\\e", text)
    gsub(/-/, "\\-", text)
    sub(/^[.']/, "\\\\\\&&", text)
    return text
}

# a text as roff reads it, in lines of at most 78 columns
function lines_of(text,    words, count, i, line, all) {
    count = split(text, words, " ")
    for (i = 1; i <= count; i++) {
        if (line != "" && length(roff(line " " words[i])) > 78) {
            all = all roff(line) "\n"
            line = ""
        }
        line = line (line == "" ? "" : " ") words[i]
    }
    return all roff(line)
}

# Prints lines of the page. What the program's help says after its options comes after the commands.
function say(lines) {
    if (is_program && is_late) late = late lines "\n"
    else print lines
}

# an entry of a list: what is before the first two spaces, and what is after them, or on the next lines
function say_entry(text,    item, meaning) {
    sub(/^ +/, "", text)
    item = text
    if (match(text, /  +/)) {
        item = substr(text, 1, RSTART - 1)
        meaning = substr(text, RSTART + RLENGTH)
    }
    say(".TP\n.B " roff(item) (meaning == "" ? "" : "\n" lines_of(meaning)))
    is_new = meaning == ""
}

# a further line of an entry
function say_further(text) {
    sub(/^ +/, "", text)
    say((is_new || section == "Exit statuses" ? "" : ".br\n") lines_of(text))
    is_new = 0
}

BEGIN { printf ".TH URLCHECK 1 \"%s\" \"%s\" \"User Commands\"\n", day, version }

FNR == 1 {
    if (NR != 1 && is_program) print ".SH COMMANDS"
    is_program = NR == 1
    is_late = 0
    section = ""
    about = $0
    sub(/\. .*/, "", about)
    if (is_program) say(".SH NAME\nurlcheck \\- " roff(tolower(substr(about, 1, 1)) substr(about, 2)))
    next
}

/^Usage: / {
    if (is_program) say(".SH SYNOPSIS\n.B " roff(substr($0, 8)))
    else say(".SS \"" roff(substr($0, 8)) "\"\n" lines_of(about "."))
    next
}

/^[A-Z][A-Za-z ]*:$/ {
    section = substr($0, 1, length($0) - 1)
    is_late = section != "Options"
    if (section == "Commands") next
    if (is_program) say(".SH " (section == "Exit statuses" ? "EXIT STATUS" : toupper(section)))
    else if (section !~ /^(Arguments|Options)$/) say(".PP\n" section ":")
    next
}

/^$/ { is_paragraph = 1; next }

section == "Commands" { next }

section == "" && /^ +urlcheck / {
    sub(/^ +/, "")
    say(".PP\n.B " roff($0))
    next
}

/^ / {
    if (section ~ /^Examples?$/) {
        sub(/^ +/, "")
        say((is_program ? "" : ".PP\n") ".RS 4\n.nf\n" roff($0) "\n.fi\n.RE")
    } else if (/^     / && !/^ +-/ || /^          /) say_further($0)
    else say_entry($0)
    is_paragraph = 0
    next
}

{
    say((is_paragraph ? ".PP\n" : "") lines_of($0))
    is_paragraph = 0
}

END {
    printf "%s", late
    print ".SH SEE ALSO\n.BR urlcheck\\-documents (1)"
}
