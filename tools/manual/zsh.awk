# The completions of zsh, from the rows of words.awk.

# a text within single quotes and brackets
function quoted(text) {
    gsub(/'/, "'\\''", text)
    gsub(/\]/, "\\]", text)
    return text
}

# what completes a value: those that are listed, or files, or nothing
function action(value, values) {
    if (values != "") return "(" values ")"
    return value == "FILE" ? "_files" : " "
}

$2 == "command" {
    commands = commands sprintf("\n        '%s:%s'", $3, quoted($5))
    order[++count] = $3
    names = names " " $3
}

# an option by its name, or by that of one letter too: then one of both is enough
$2 == "option" {
    name = $3 ($4 == "" ? "" : "=")
    if ($7 == "") name = "'" name
    else name = "'(" $7 " " $3 ")'{" $7 ($4 == "" ? "" : "+") "," name "}'"
    spec[$1] = spec[$1] sprintf(" \\\n                %s[%s]%s'", name, quoted($5),
        $4 == "" ? "" : ":" $4 ":" action($4, $6))
}

$2 == "argument" {
    many = $3 ~ /\.\.\.$/ ? "*" : ""
    spec[$1] = spec[$1] sprintf(" \\\n                '%s:%s:%s'", many, $4, action($4, $6))
}

END {
    print "#compdef urlcheck"
    print "# Completions of urlcheck for zsh, made by make-manual."
    print "_urlcheck() {"
    print "    local -a commands"
    print "    commands=(" commands "\n    )"
    print "    if ((CURRENT == 2)); then"
    print "        _describe command commands"
    print "        _arguments" spec[""]
    print "        return"
    print "    fi"
    print "    local command=$words[2]"
    print "    shift words"
    print "    ((CURRENT--))"
    print "    case $command in"
    for (i = 1; i <= count; i++) {
        if (order[i] == "help") spec["help"] = sprintf(" \\\n                ':COMMAND:(%s)'", substr(names, 2))
        printf "        %s)\n            _arguments%s ;;\n", order[i], spec[order[i]]
    }
    print "    esac"
    print "}"
    print "_urlcheck \"$@\""
}
