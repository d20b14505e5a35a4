# Completions of urlcheck-documents for bash.
_urlcheck_documents() {
    local word=${COMP_WORDS[COMP_CWORD]} previous=${COMP_WORDS[COMP_CWORD - 1]} words= takes_files= option=
    # A value after `=` is a word of its own, or with COMP_WORDBREAKS changed a part of the option.
    if [[ $word == = ]]; then word=
    elif [[ $previous == = ]]; then previous=${COMP_WORDS[COMP_CWORD - 2]}
    elif [[ $word == --*=* ]]; then previous=${word%%=*} option=$previous= word=${word#*=}; fi
    case $previous in
        --profile) words='standard wide parser' ;;
        --format) words='gnu caret json github sarif checkstyle junit gitlab rdjson' ;;
        --columns) words='code-points bytes utf16 screen' ;;
        --type) words='html xml markdown mdx rst notebook epub css json-feed' ;;
        --color) words='auto always never' ;;
        --select) words='no-scheme opaque-base two-slashes host-missing host-domain host-number host-ipv6 host-code-point port-digit port-range first-segment-empty drive-after-host code-point percent empty no-link' ;;
        --ignore) words='no-scheme opaque-base two-slashes host-missing host-domain host-number host-ipv6 host-code-point port-digit port-range first-segment-empty drive-after-host code-point percent empty no-link' takes_files=yes ;;
        --baseline | --write-baseline | --output) takes_files=yes ;;
        --base | --exclude | --stdin-name | --jobs) ;;
        *) words='--list --format --columns --base --profile --type --select --ignore --exclude --git --gfm --no-empty --no-config --stdin-name --fix --unsafe-fixes --diff --statistics --baseline --write-baseline --exit-zero --output --color --jobs --quiet -q --help -h --version -V'
           takes_files=yes ;;
    esac
    mapfile -t COMPREPLY < <(compgen -P "$option" -W "$words" -- "$word")
    if [[ -n $takes_files ]]; then
        compopt -o filenames
        mapfile -t -O ${#COMPREPLY[@]} COMPREPLY < <(compgen -P "$option" -f -- "$word")
    fi
}
complete -F _urlcheck_documents urlcheck-documents
