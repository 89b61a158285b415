# Completes the words of amf. completions/make made this file of completions/words.txt.
_amf() {
    local word=${COMP_WORDS[COMP_CWORD]} before=${COMP_WORDS[COMP_CWORD - 1]} words=''
    if [[ $word == = ]]; then
        word=''
    elif [[ $before == = ]]; then
        before=${COMP_WORDS[COMP_CWORD - 2]}
    fi
    if ((COMP_CWORD == 1)); then
        words='show json bytes check canon same gen flv rtmp call listen serve version'
    else
        case "${COMP_WORDS[1]} $before" in
            *'<' | *'>') ;;
            'show --from') words='amf3 amf0 packet sol' ;;
            'show '*) words='--from' ;;
            'json --from') words='amf3 amf0 packet sol' ;;
            'json --layout') words='lines compact' ;;
            'json '*) words='--from --layout' ;;
            'check --from') words='amf3 amf0 packet sol' ;;
            'check '*) words='--from' ;;
            'canon --from') words='amf3 amf0 packet sol' ;;
            'canon --to') words='amf3 amf0 packet sol' ;;
            'canon '*) words='--from --to' ;;
            'gen --seed') words='' ;;
            'gen --size') words='' ;;
            'gen '*) words='--seed --size' ;;
            'flv --do') words='show drop set' ;;
            'flv '*) words='--do' ;;
            'rtmp --do') words='show rechunk' ;;
            'rtmp --size') words='' ;;
            'rtmp '*) words='--do --size' ;;
            'call --port') words='' ;;
            'call --target') words='' ;;
            'call '*) words='--port --target' ;;
            'listen --port') words='' ;;
            'listen --destination') words='' ;;
            'listen --polls') words='' ;;
            'listen '*) words='--port --destination --polls' ;;
            'serve --port') words='' ;;
            'serve --workers') words='' ;;
            'serve --each') words='' ;;
            'serve '*) words='--port --workers --each' ;;
        esac
    fi
    mapfile -t COMPREPLY < <(compgen -W "$words" -- "$word")
}
complete -o default -F _amf amf
