# The completions of bash, from the rows of words.awk.

# the options and listed values that a command takes, and whether it takes files
{
    if ($2 == "option") words[$1] = words[$1] " " $3 ($7 == "" ? "" : " " $7)
    if ($2 == "argument" && $6 != "") words[$1] = words[$1] " " $6
    if ($2 == "argument" && $4 == "FILE") takes_files[$1] = 1
    if ($2 == "option" && $4 != "") {
        short = $7 == "" ? "" : " | " $1 ":" $7
        values = values sprintf("        %s:%s%s) words='%s' is_value=yes ;;\n", $1, $3, short, $6)
    }
    if ($2 == "command") {
        commands = commands " " $3
        order[++count] = $3
    }
}

END {
    print "# Completions of urlcheck for bash, made by make-manual."
    print "_urlcheck() {"
    print "    local word=${COMP_WORDS[COMP_CWORD]} previous=${COMP_WORDS[COMP_CWORD - 1]} command= words= is_value= option= is_after= i"
    print "    # A value after `=` is a word of its own, or with COMP_WORDBREAKS changed a part of the option."
    print "    if [[ $word == = ]]; then word="
    print "    elif [[ $previous == = ]]; then previous=${COMP_WORDS[COMP_CWORD - 2]}"
    print "    elif [[ $word == --*=* ]]; then previous=${word%%=*} option=$previous= word=${word#*=}; fi"
    print "    for ((i = 1; i < COMP_CWORD; i++)); do"
    print "        if [[ ${COMP_WORDS[i]} == -- || $command == help ]]; then is_after=yes"
    print "        elif [[ -z $command && ${COMP_WORDS[i]} != -* ]]; then command=${COMP_WORDS[i]}; fi"
    print "    done"
    print "    case $command:$previous in"
    printf "%s", values
    print "        *)"
    print "            case $command in"
    printf "                '') words='%s%s' ;;\n", substr(commands, 2), words[""]
    for (i = 1; i <= count; i++) {
        if (order[i] == "help") given = commands
        else given = words[order[i]]
        printf "                %s) words='%s' ;;\n", order[i], substr(given, 2)
    }
    print "            esac ;;"
    print "    esac"
    print "    # After `--` there are texts and files alone, and after the command of `help` nothing."
    print "    if [[ $is_after ]]; then words= is_value=; fi"
    print "    mapfile -t COMPREPLY < <(compgen -P \"$option\" -W \"$words\" -- \"$word\")"
    for (i = 1; i <= count; i++) if (order[i] in takes_files) files = files (files == "" ? "" : " | ") order[i]
    print "    case $is_value$command in"
    printf "        %s)\n", files
    print "            compopt -o filenames"
    print "            mapfile -t -O ${#COMPREPLY[@]} COMPREPLY < <(compgen -f -- \"$word\") ;;"
    print "    esac"
    print "}"
    print "complete -F _urlcheck urlcheck"
}
