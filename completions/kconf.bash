# bash completion for kconf
_kconf() {
    local word=${COMP_WORDS[COMP_CWORD]} before=${COMP_WORDS[COMP_CWORD-1]}
    case $before in
        --root | --include)
            COMPREPLY=($(compgen -d -- "$word"))
            return ;;
        --config | --out | --header | --savedefconfig | --list-new | --list-gone | --list-dead | --depfile | --each-from | --fragment)
            COMPREPLY=($(compgen -f -- "$word"))
            return ;;
        --prefix)
            COMPREPLY=($(compgen -W 'CONFIG_ BR2_' -- "$word"))
            return ;;
        --explain | --explain-depth | --how | --how-steps)
            return ;;
    esac
    if [[ $word == -* ]]; then
        COMPREPLY=($(compgen -W \
            '--root --flat --include --config --out --header --savedefconfig --list-new --with-help --list-gone --list-dead --depfile --prefix --raw-strings --must-exist --strict --strict-tree --quiet-tree --hints --warn-lost --explain-lost --explain --explain-depth --how --how-steps --replace --check --diff --each --each-from --fragment --help --version' -- "$word"))
    else
        COMPREPLY=($(compgen -f -- "$word"))
    fi
}
complete -o filenames -F _kconf kconf
