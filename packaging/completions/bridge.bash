# Completion of bridge for bash, as bash-completion loads it.
_bridge() {
    local cur prev words cword split=false
    _init_completion -s -n : || return
    local command=${words[1]} options wanted
    if ((cword == 1)); then
        mapfile -t COMPREPLY < <(compgen -W 'hls hls-index dash dash-times show check compare agree reload make follow follow-hls follow-hls-times' -- "$cur")
        return
    fi
    case $command in
    hls) options='--base= --now= --out= --digits= --form= --addresses=' wanted=mpd ;;
    hls-index) options='--base= --out= --digits= --form= --addresses=' wanted=mpd ;;
    dash | dash-times | follow-hls | follow-hls-times) options='--base= --out= --form=' wanted=m3u8 ;;
    show) options='--base= --now= --digits=' wanted='@(mpd|m3u8)' ;;
    check) options='--base= --digits=' wanted='@(mpd|m3u8)' ;;
    compare) options='--base= --now= --digits= --within= --all=' wanted='@(mpd|m3u8)' ;;
    agree) options='--base=' wanted=mpd ;;
    reload) options='--base=' wanted=m3u8 ;;
    make) options='--seed= --out= --digits=' wanted= ;;
    follow) options='--base= --out= --digits= --form= --addresses=' wanted=mpd ;;
    *) return ;;
    esac
    options+=' --explain'
    case $prev in
    --base) mapfile -t COMPREPLY < <(compgen -W 'http:// https://' -- "$cur"); compopt -o nospace; return ;;
    --out) _filedir -d; return ;;
    --addresses) mapfile -t COMPREPLY < <(compgen -W 'absolute relative' -- "$cur"); return ;;
    --form) mapfile -t COMPREPLY < <(compgen -W 'plain players' -- "$cur"); return ;;
    --digits) mapfile -t COMPREPLY < <(compgen -W '3 4 5 6 7 8 9' -- "$cur"); return ;;
    --now) mapfile -t COMPREPLY < <(compgen -W "$(date -u +%FT%TZ)" -- "$cur"); return ;;
    --seed | --within | --all) return ;;
    esac
    $split && return
    if [[ $cur == -* ]]; then
        local word kept=()
        # Options can't be repeated.
        for word in $options; do [[ " ${words[*]} " == *" ${word%=}"[=\ ]* ]] || kept+=("$word"); done
        mapfile -t COMPREPLY < <(compgen -W "${kept[*]}" -- "$cur")
        [[ ${COMPREPLY[0]-} == --explain ]] || compopt -o nospace
    elif [ -n "$wanted" ]; then
        _filedir "$wanted"
    fi
} && complete -F _bridge bridge manifest-bridge
