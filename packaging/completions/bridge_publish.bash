# Completion of bridge_publish for bash, as bash-completion loads it.
_bridge_publish() {
    # shellcheck disable=SC2034
    local cur prev words cword split=false
    _init_completion -s -n : || return
    case $prev in
    --target) return ;;
    --end | --back) mapfile -t COMPREPLY < <(compgen -W 'yes no' -- "$cur"); return ;;
    esac
    $split && return
    if [[ $cur == -* ]]; then
        mapfile -t COMPREPLY < <(compgen -W '--target= --end= --back=' -- "$cur")
        compopt -o nospace
    else
        _filedir -d
    fi
} && complete -F _bridge_publish bridge_publish
