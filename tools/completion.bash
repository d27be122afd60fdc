# Completes the words of consensus_routing and of tools/routing in bash:  . tools/completion.bash

_consensus_routing() {
    local word=${COMP_WORDS[COMP_CWORD]}
    [ "$COMP_CWORD" -ne 1 ] || COMPREPLY=($(compgen -W "replay load node audit lead" -- "$word"))
    [ "${COMP_WORDS[1]} $COMP_CWORD" != "node 4" ] || COMPREPLY=($(compgen -f -- "$word"))
}

_routing() {
    local word=${COMP_WORDS[COMP_CWORD]} before=${COMP_WORDS[COMP_CWORD - 1]} options=
    COMPREPLY=()
    if [ "$COMP_CWORD" -eq 1 ]; then
        COMPREPLY=($(compgen -W "view network text diff inflight fuzz faults campaign load --help" -- "$word"))
        return
    fi
    case $before in
        --from) COMPREPLY=($(compgen -W "as-rel graphml json schedule" -- "$word")); return ;;
        --to) COMPREPLY=($(compgen -W "schedule dot graphml" -- "$word")); return ;;
        --relation) COMPREPLY=($(compgen -W "customer provider peer any" -- "$word")); return ;;
        --rule) COMPREPLY=($(compgen -W "links multihomed crashes announce" -- "$word")); return ;;
        --only) COMPREPLY=($(compgen -W "epoch node large named" -- "$word")); return ;;
        --kind) COMPREPLY=($(compgen -W "rib log cut recorded closure ctl table walk idle probe other" -- "$word")); return ;;
    esac
    case ${COMP_WORDS[1]} in
        view) options="-o --output --svg --png --line --prefix --epoch --packet --from --each-delivery --program" ;;
        network) options="--from --to --nodes --consolidators --relation --pref --announce --generate --seed" ;;
        text) options="--csv --kind --program" ;;
        diff) options="--program" ;;
        inflight) options="--line --program" ;;
        fuzz) options="--keep --program" ;;
        faults) options="--only --most --program" ;;
        campaign) options="--rule --orders --moments --csv --plot --no-pref --most --workers --scheduler --program" ;;
        load) options="--counts" ;;
    esac
    case $word in
        -*) COMPREPLY=($(compgen -W "$options --help" -- "$word")) ;;
        *) COMPREPLY=($(compgen -f -- "$word")) ;;
    esac
}

complete -F _consensus_routing -o default consensus_routing ./consensus_routing
complete -F _routing -o filenames routing tools/routing
