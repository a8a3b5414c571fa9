# Completion of bridge_serve for bash, as bash-completion loads it.
_bridge_serve() {
    # shellcheck disable=SC2034
    local cur prev words cword split=false
    _init_completion -s -n : || return
    case $prev in
    --base) mapfile -t COMPREPLY < <(compgen -W 'http:// https://' -- "$cur"); compopt -o nospace; return ;;
    --index) mapfile -t COMPREPLY < <(compgen -W yes -- "$cur"); return ;;
    --now) mapfile -t COMPREPLY < <(compgen -W "$(date -u +%FT%TZ)" -- "$cur"); return ;;
    --cache-control) mapfile -t COMPREPLY < <(compgen -W 'no-cache max-age=2' -- "$cur"); return ;;
    esac
    $split && return
    mapfile -t COMPREPLY < <(compgen -W '--base= --index=yes --now= --cache-control= --help --version' -- "$cur")
    compopt -o nospace
} && complete -F _bridge_serve bridge_serve
