# Completion of glab for bash. Made by scripts/make-pages from scripts/words.txt.
_glab() {
    local word=${COMP_WORDS[COMP_CWORD]} verb= i
    for ((i = 1; i < COMP_CWORD; i++)); do
        case ${COMP_WORDS[i]} in
        -*) ;;
        *) verb=${COMP_WORDS[i]}; break ;;
        esac
    done
    case $verb in
    '') COMPREPLY=($(compgen -W 'run resume init cut make help --help --version --unproved' -- "$word")) ;;
    help) COMPREPLY=($(compgen -W 'run resume init cut make vertices edges directed algorithm source engine machines atoms pipeline budget window store atoms_at order failures' -- "$word")) ;;
    make) COMPREPLY=($(compgen -W '--number --vertices --edges --weight' -- "$word") $(compgen -f -- "$word")) ;;
    run|resume) COMPREPLY=($(compgen -W '--report' -- "$word") $(compgen -f -- "$word")) ;;
    *) COMPREPLY=($(compgen -f -- "$word")) ;;
    esac
}
complete -o filenames -F _glab glab scripts/glab
