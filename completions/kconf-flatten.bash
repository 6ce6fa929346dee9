# bash completion for kconf-flatten
_kconf_flatten() {
    local word=${COMP_WORDS[COMP_CWORD]} before=${COMP_WORDS[COMP_CWORD-1]}
    case $before in
        --root)
            COMPREPLY=($(compgen -d -- "$word"))
            return ;;
        --out | --depfile | --record | --missing-ok)
            COMPREPLY=($(compgen -f -- "$word"))
            return ;;
    esac
    if [[ $word == -* ]]; then
        COMPREPLY=($(compgen -W \
            '--root --relative-source --missing-ok --out --depfile --record --quiet --silent --help' -- "$word"))
    else
        COMPREPLY=($(compgen -f -- "$word"))
    fi
}
complete -o filenames -F _kconf_flatten kconf-flatten
