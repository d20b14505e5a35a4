# The completions of fish, from the rows of words.awk.

# a text within single quotes
function quoted(text) {
    gsub(/\\/, "\\\\", text)
    gsub(/'/, "\\'", text)
    return "'" text "'"
}

# a line for the words of a command, or for those of the program itself
function complete(command, rest) {
    printf "complete -c urlcheck -n %s%s\n",
        command == "" ? "__fish_use_subcommand" : quoted("__fish_seen_subcommand_from " command), rest
}

BEGIN {
    print "# Completions of urlcheck for fish, made by make-manual."
    print "complete -c urlcheck -f"
}

$2 == "command" {
    complete("", " -a " $3 " -d " quoted($5))
    names = names " " $3
}

$2 == "option" {
    short = $7 == "" ? "" : " -s " substr($7, 2)
    complete($1, short " -l " substr($3, 3) ($4 == "" ? "" : " -x") ($6 == "" ? "" : " -a " quoted($6)) " -d " quoted($5))
}

$2 == "argument" && $6 != "" { complete($1, " -a " quoted($6)) }
$2 == "argument" && $4 == "FILE" { complete($1, " -F") }

END { complete("help", " -a " quoted(substr(names, 2))) }
