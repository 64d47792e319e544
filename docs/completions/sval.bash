# Written by bench/cli_pages from the table of the options. Change that, not this.
_sval() {
    local word=${COMP_WORDS[COMP_CWORD]} before=${COMP_WORDS[COMP_CWORD - 1]} options='--from --to --lines --keep --drop --pointer --beside --progress --help --version'
    [ "$word" = = ] && word=
    [ "$before" = = ] && before=${COMP_WORDS[COMP_CWORD - 2]}
    [ "${COMP_WORDS[1]}" = check ] && options='--from --lines --progress --help --version'
    COMPREPLY=()
    case $before in
        --from) COMPREPLY=($(compgen -W 'json cbor script' -- "$word")); return ;;
        --to) COMPREPLY=($(compgen -W 'json pretty cbor script logfmt' -- "$word")); return ;;
        --keep|--drop|--pointer) return ;;
    esac
    case $word in
        -*) COMPREPLY=($(compgen -W "$options" -- "$word")) ;;
        *)
            COMPREPLY=($(compgen -f -- "$word"))
            [ "$COMP_CWORD" = 1 ] && COMPREPLY+=($(compgen -W check -- "$word"))
            ;;
    esac
}
complete -o filenames -F _sval sval
