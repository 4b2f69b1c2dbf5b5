# bash completion for slapkit(1)
_slapkit() {
    local cur=${COMP_WORDS[COMP_CWORD]} prev=${COMP_WORDS[COMP_CWORD-1]}
    if [ "$COMP_CWORD" -eq 1 ]; then
        COMPREPLY=($(compgen -W "slapacl slapconf slapmodify help --help --version" -- "$cur"))
        return
    fi
    if [ "${COMP_WORDS[1]}" = help ]; then
        [ "$COMP_CWORD" -gt 2 ] || COMPREPLY=($(compgen -W "slapacl slapconf slapmodify" -- "$cur"))
        return
    fi
    case $prev in
        # no words: then readline completes file names, as it does for any command, those with spaces as one word
        --data | --out | --undo | --questions | --answers | --config | -f | -l) compopt -o default; return ;;
        -b | -D | --last) return ;;
    esac
    if [ "${COMP_WORDS[1]}" = slapacl ]; then
        COMPREPLY=($(compgen -W "-b -f --data -D -u -v --strict --questions --answers --help" -- "$cur"))
        return
    fi
    if [ "${COMP_WORDS[1]}" = slapconf ]; then
        COMPREPLY=($(compgen -W "-b -f --config --out --help" -- "$cur"))
        return
    fi
    COMPREPLY=($(compgen -W "-b --data --out --undo -l --last -f -c -u -v --help" -- "$cur"))
}
complete -F _slapkit slapkit
