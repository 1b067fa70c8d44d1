# Completions of vc2link for bash. Written by docs/pages.
_vc2link() {
    local word=${COMP_WORDS[COMP_CWORD]} before=${COMP_WORDS[COMP_CWORD - 1]} words= given
    if ((COMP_CWORD == 1)); then
        words='encode decode send recv loop record replay play unpack pack gen rtcp rtcp-show probe help --help --version'
    elif [[ $before == [\<\>]* ]]; then
        mapfile -t COMPREPLY < <(compgen -f -- "$word")
        return
    elif ((COMP_CWORD % 2 == 0)); then
        case ${COMP_WORDS[1]} in
            encode) words='--width --height --sampling --range --fields --top --wavelet --depth --slices --prefix --scaler --index --fit --budget --size --ssrc --seq --picture --tick --rate --aspect --colour --pt --frames --first --workers --progress --help' ;;
            decode) words='--window --workers --packets --pcap --port --fill --progress --help' ;;
            send) words='--width --height --sampling --range --fields --top --wavelet --depth --slices --prefix --scaler --index --fit --budget --size --ssrc --seq --picture --tick --rate --aspect --colour --pt --frames --first --pace --to --workers --progress --help' ;;
            recv) words='--at --window --workers --packets --sessions --idle --seconds --frames --fill --progress --help' ;;
            loop) words='--width --height --sampling --range --fields --top --wavelet --depth --slices --prefix --scaler --index --fit --budget --size --ssrc --seq --picture --tick --rate --aspect --colour --pt --frames --first --at --window --workers --progress --help' ;;
            record) words='--at --packets --sessions --idle --seconds --progress --help' ;;
            replay) words='--pace --to --packets --progress --help' ;;
            play) words='--packets --progress --help' ;;
            unpack) words='--window --workers --packets --pcap --port --help' ;;
            pack) words='--size --ssrc --seq --tick --rate --pt --packets --help' ;;
            gen) words='--width --height --sampling --range --fields --top --window --workers --seed --frames --check --help' ;;
            rtcp) words='--packets --pcap --port --every --ssrc --cname --sender --ntp --help' ;;
            rtcp-show) words='--packets --pcap --port --help' ;;
            probe) words='--packets --pcap --port --help' ;;
        esac
        for given in "${COMP_WORDS[@]:2:COMP_CWORD-2}"; do
            words=${words/"$given" /}
        done
    else
        case $before in
            --check|--fields|--fill|--pace|--pcap|--sender|--top) words='0 1' ;;
            --colour) words='1 2 3 4 5 6 7' ;;
            --depth|--range) words='1 2 3 4' ;;
            --sampling) words='444 422 420' ;;
            --wavelet) words='0 1 2 3 4 5 6' ;;
            --window) words='2 3 4 5 6 7 8' ;;
        esac
    fi
    mapfile -t COMPREPLY < <(compgen -W "$words" -- "$word")
}
complete -F _vc2link vc2link
