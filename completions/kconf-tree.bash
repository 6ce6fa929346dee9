# bash completion for kconf-tree: its own arguments up to KCONFIG, then those of kconf
_kconf_tree() {
    local word=${COMP_WORDS[COMP_CWORD]} before=${COMP_WORDS[COMP_CWORD-1]} at
    for ((at = 1; at < COMP_CWORD; at++)); do
        case ${COMP_WORDS[at]} in
            -C | --missing-ok) ((at++)) ;;
            -* | = | *=*) ;;
            *)
                [[ ${COMP_WORDS[at+1]} == = || ${COMP_WORDS[at-1]} == = ]] && continue
                declare -F _kconf > /dev/null || . "${BASH_SOURCE[0]%/*}/kconf" 2> /dev/null || . "${BASH_SOURCE[0]%/*}/kconf.bash" 2> /dev/null
                declare -F _kconf > /dev/null && _kconf
                return ;;
        esac
    done
    case $before in
        -C)
            COMPREPLY=($(compgen -d -- "$word"))
            return ;;
    esac
    if [[ $word == -* ]]; then
        COMPREPLY=($(compgen -W '-C --refresh --verbose --relative-source --missing-ok --help --version' -- "$word"))
    else
        COMPREPLY=($(compgen -f -- "$word"))
    fi
}
complete -o filenames -F _kconf_tree kconf-tree
