# Completion of cops for bash.
_cops() {
    local word=${COMP_WORDS[COMP_CWORD]} words
    case ${COMP_WORDS[1]} in
        audit) words="--workers --so-far -h --help" ;;
        explain) words="--all --fault --picture --json -h --help" ;;
        check) words="--all --fault --picture --json --rank --follow -h --help" ;;
        show) words="-h --help" ;;
        import) words="--format --rank -h --help" ;;
        convert) words="-h --help" ;;
        run) words="-h --help" ;;
        serve) words="--sessions --idle --trace --announce -h --help" ;;
        *) words="audit explain check show import convert run serve help -h --help -V --version" ;;
    esac
    if [[ $COMP_CWORD -eq 1 || $word == -* ]]; then
        mapfile -t COMPREPLY < <(compgen -W "$words" -- "$word")
    else
        mapfile -t COMPREPLY < <(compgen -f -- "$word")
    fi
}
complete -o filenames -F _cops cops
