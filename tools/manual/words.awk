# What may be in the words, from the help of the program and then of each of its commands: a row each, its fields
# parted by tabs. They are the command, or nothing for the program's own; command, option or argument; its name; the
# name of its value, if it has one, which is FILE where it may be that of a file; the first line of what it means; the
# values that it may have, if they are known: for RULE those of the variable rules, and else those that the help lists
# after `- `; and an option's name of one letter, if it has one.

# Prints the row of the entry that was read last, if there is one.
function say_row() {
    if (name == "") return
    if (value == "RULE") values = rules
    if (kind == "argument" && takes_files) value = "FILE"
    printf "%s\t%s\t%s\t%s\t%s\t%s\t%s\n", command, kind, name, value, meaning, values, short
    name = ""
}

# Reads the names of an option or an argument, and that of its value.
function read_names(text,    count, part, i) {
    value = short = meaning = values = ""
    name = text
    if (kind == "argument") value = text
    count = kind == "option" ? split(text, part, /,? /) : 0
    for (i = 1; i <= count; i++) {
        if (part[i] ~ /^--/) name = part[i]
        else if (part[i] ~ /^-/) short = part[i]
        else value = part[i]
    }
    gsub(/[][<>.]/, "", value)
}

FNR == 1 {
    say_row()
    command = section = ""
    takes_files = 0
}

/^Usage: urlcheck [a-z]/ { command = $3 }

# (a command whose arguments may be files, by one of its usages)
section == "" && /urlcheck .*<FILE>/ { takes_files = 1 }

/^[A-Z][A-Za-z ]*:$/ {
    say_row()
    section = $0
    kind = section == "Commands:" ? "command" : section == "Arguments:" ? "argument" : "option"
    if (section ~ /^(Exit statuses|Examples?):$/) section = ""
    next
}

/^[^ ]/ {
    say_row()
    section = ""
}

section == "" || /^$/ { next }

{
    text = $0
    sub(/^ +/, "", text)
}

/^          - / {
    sub(/^- /, "", text)
    sub(/:.*/, "", text)
    values = values (values == "" ? "" : " ") text
    next
}

/^          / {
    if (meaning == "") meaning = text
    sub(/ \[default: [^]]*\]$/, "", meaning)
    next
}

{
    say_row()
    if (kind == "command") {
        read_names($1)
        meaning = substr(text, match(text, /  +/) + RLENGTH)
    } else read_names(text)
}

END { say_row() }
