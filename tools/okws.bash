# Completion of okws and its tools in bash: source it, or put it where bash-completion looks.
_okws_words() { mapfile -t COMPREPLY < <(compgen -W "$1" -- "$2"); }
_okws_files() { mapfile -t COMPREPLY < <(compgen -f -X "!*.$1" -- "$2"; compgen -d -- "$2"); }

# The options that aren't there yet.
_okws_options() {
    local option left=''
    for option in $1; do [[ " ${COMP_WORDS[*]} " == *" $option "* ]] || left+="$option "; done
    _okws_words "$left" "$2"
}

_okws() {
    local word=${COMP_WORDS[COMP_CWORD]} before=${COMP_WORDS[COMP_CWORD-1]} command=${COMP_WORDS[0]##*/} options=''
    COMPREPLY=()
    if [ "$command" = okws ]; then
        [ "$COMP_CWORD" != 1 ] || { _okws_words 'check play drill serve help --version' "$word"; return; }
        command="okws ${COMP_WORDS[1]}"
    fi
    case $command in
        'okws serve') options='--port --serve --always --doors --patience --store --log' ;;
        okws-up) options='--port --doors --patience --store --log --templates --run --grace --count --okws' ;;
        okws-ctl) options='--site --run --json' ;;
        okws-front) options='--listen --certificate --doors' ;;
    esac
    case $before in
        --store|--log|--okws|--certificate) mapfile -t COMPREPLY < <(compgen -f -- "$word"); return ;;
        --templates|--run) mapfile -t COMPREPLY < <(compgen -d -- "$word"); return ;;
        --port|--serve|--doors|--patience|--grace|--count|--site|--listen) return ;;
    esac
    [[ $word != -* ]] || { _okws_options "$options" "$word"; return; }
    case $command in
        'okws check'|'okws serve'|okws-show|okws-up|okws-front) _okws_files okws "$word" ;;
        'okws play'|okws-draw) _okws_files '@(okws|script)' "$word" ;;
        okws-explain) _okws_words 'config query script denied console status frame' "$word"; [ -n "${COMPREPLY[*]}" ] || _okws_files '@(okws|script)' "$word" ;;
        okws-ctl) _okws_words 'status publish relaunch reload stop' "$word" ;;
    esac
}
shopt -q extglob || shopt -s extglob
complete -o filenames -F _okws okws okws-up okws-ctl okws-show okws-explain okws-draw okws-front
