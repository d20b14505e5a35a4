# Completions of urlcheck for bash, made by make-manual.
_urlcheck() {
    local word=${COMP_WORDS[COMP_CWORD]} previous=${COMP_WORDS[COMP_CWORD - 1]} command= words= is_value= option= is_after= i
    # A value after `=` is a word of its own, or with COMP_WORDBREAKS changed a part of the option.
    if [[ $word == = ]]; then word=
    elif [[ $previous == = ]]; then previous=${COMP_WORDS[COMP_CWORD - 2]}
    elif [[ $word == --*=* ]]; then previous=${word%%=*} option=$previous= word=${word#*=}; fi
    for ((i = 1; i < COMP_CWORD; i++)); do
        if [[ ${COMP_WORDS[i]} == -- || $command == help ]]; then is_after=yes
        elif [[ -z $command && ${COMP_WORDS[i]} != -* ]]; then command=${COMP_WORDS[i]}; fi
    done
    case $command:$previous in
        check:--base) words='' is_value=yes ;;
        check:--profile) words='standard wide parser' is_value=yes ;;
        lint:--base) words='' is_value=yes ;;
        lint:--profile) words='standard wide parser' is_value=yes ;;
        lint:--format) words='gnu caret json github sarif checkstyle junit gitlab rdjson' is_value=yes ;;
        lint:--columns) words='code-points bytes utf16 screen' is_value=yes ;;
        lint:--color) words='auto always never' is_value=yes ;;
        lint:--stdin-name) words='' is_value=yes ;;
        links:--base) words='' is_value=yes ;;
        links:--profile) words='standard wide parser' is_value=yes ;;
        mend:--base) words='' is_value=yes ;;
        mend:--profile) words='standard wide parser' is_value=yes ;;
        mend:--only) words='same escaped changed' is_value=yes ;;
        *)
            case $command in
                '') words='check lint links mend vectors explain help --help -h --version -V' ;;
                check) words='--help -h --base --all --profile --wide' ;;
                lint) words='--help -h --base --all --profile --wide --format --columns --color --quiet -q --located --stdin-name' ;;
                links) words='--help -h --base --profile --wide' ;;
                mend) words='--help -h --base --profile --wide --in-place -i --only --all-mended --quiet -q' ;;
                vectors) words='--help -h' ;;
                explain) words='no-scheme opaque-base two-slashes host-missing host-domain host-number host-ipv6 host-code-point port-digit port-range first-segment-empty drive-after-host code-point percent not-utf8 line-too-long not-located empty no-link --help -h --url' ;;
                help) words='check lint links mend vectors explain help' ;;
            esac ;;
    esac
    # After `--` there are texts and files alone, and after the command of `help` nothing.
    if [[ $is_after ]]; then words= is_value=; fi
    mapfile -t COMPREPLY < <(compgen -P "$option" -W "$words" -- "$word")
    case $is_value$command in
        lint | mend | vectors)
            compopt -o filenames
            mapfile -t -O ${#COMPREPLY[@]} COMPREPLY < <(compgen -f -- "$word") ;;
    esac
}
complete -F _urlcheck urlcheck
