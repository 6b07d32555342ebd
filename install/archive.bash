# Completion of the program archive in bash.
_archive() {
    local word=${COMP_WORDS[COMP_CWORD]} before=${COMP_WORDS[COMP_CWORD - 1]} words=
    if [ "$COMP_CWORD" -eq 1 ]; then
        words="serve exchange correct report move verify simulate help --help --version"
    else
        case "${COMP_WORDS[1]} $before" in
            *\ --listen | *\ --exchange | *\ --page | *\ --desk | *\ --peer | *\ --every | *\ --allow | *\ --exchange-allow | *\ --page-allow | *\ --desk-allow | *\ --name | *\ --calling | *\ --quality-calling | *\ --audit-calling | *\ --cache | *\ --idle | *\ --exchange-workers | *\ --workers | *\ --each | *\ --rounds | *\ --site | *\ --at) return ;;
            *\ --peer-version) words="1 2" ;;
            serve\ *) words="--listen --workers --each --exchange --rounds --exchange-workers --page --desk --site --peer --every --allow --exchange-allow --page-allow --desk-allow --name --calling --quality-calling --audit-calling --cache --idle --until-end-of-input --show-without --verbose --help" ;;
            exchange\ *) words="--peer --peer-version --idle --help" ;;
            correct\ *) words="--site --at study patient series --help" ;;
            report\ *) words="--at --fingerprint --conflicts --rejected --corrections --studies --tsv --help" ;;
            move\ *) words="--help" ;;
            verify\ *) words="--help" ;;
            simulate\ *) words="--help" ;;
            help\ help) words="serve exchange correct report move verify simulate help" ;;
            *) return ;;
        esac
    fi
    COMPREPLY=()
    while IFS= read -r word; do COMPREPLY+=("$word"); done < <(compgen -W "$words" -- "${COMP_WORDS[COMP_CWORD]}")
}
complete -o default -F _archive archive
