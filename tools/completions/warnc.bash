# Completes the words of warnc in bash. To install it, source it in ~/.bashrc.
# tools/command_line.py writes it by what crates/warnc_cli/src/options.rt says.

_warnc() {
    local word=${COMP_WORDS[COMP_CWORD]} before=${COMP_WORDS[COMP_CWORD - 1]} words=
    # bash takes `--lang=de` for three words
    if [ "$word" = "=" ]; then
        word=
    elif [ "$before" = "=" ]; then
        before=${COMP_WORDS[COMP_CWORD - 2]}
    fi
    # after an option without a value comes another option
    case $before in --network | --strict | --full | --tables | --short | --explain | --lag | --used | --all | --packets) before= ;; esac
    if [ "$COMP_CWORD" -eq 1 ]; then
        words="plan check texts compile report chart load read verify page live pcap cells tape orders link whole groups help -h --help -V --version"
    else
        case ${COMP_WORDS[1]}$before in
        texts--pages) words="1 2 3 4 5 6 7 8 9 10 11 12 13 14 15" ;;
        chart--lang) words="en de" ;;
        page--lang) words="de en it fr es nl sv da pt fi no el tr hu pl und cs he ar ru is" ;;
        page--scope) words="0 1 2 3" ;;
        page--update) words="0 1 2 3 4 5 6 7 8 9 10 11 12 13 14 15" ;;
        pcap--channel) words="51 52" ;;
        tape--channel | orders--channel) words="cbch sdcch" ;;
        *--book | *--orders | *--cells)
            mapfile -t COMPREPLY < <(compgen -f -- "$word")
            compopt -o filenames
            return
            ;;
        *--*)
            # the value of any other option can't be guessed
            ;;
        *)
            case ${COMP_WORDS[1]} in
            plan) words="-h --help" ;;
            check) words="--slots --group --network --start --strict -h --help" ;;
            texts) words="--pages --group --network -h --help" ;;
            compile) words="--slots --group --network --strict --workers -h --help" ;;
            report) words="--slots --group --network --full --start --workers -h --help" ;;
            chart) words="--slots --group --network --cell --from --to --lang --start --tables --strict --workers -h --help" ;;
            load) words="--slots --group --network --start --workers -h --help" ;;
            read) words="--short --slots -h --help" ;;
            verify) words="--book --slots --short --explain --start --group --workers --orders --cell --delay --lag -h --help" ;;
            page) words="--lang --id --scope --code --update --explain -h --help" ;;
            live) words="--slots --group --network --strict --sessions --workers -h --help" ;;
            pcap) words="--used --channel --start -h --help" ;;
            cells) words="-h --help" ;;
            tape) words="--cell --all --cells --slots --first-slot --from --arfcn --channel -h --help" ;;
            orders) words="--cell --bsc --first-slot --from --arfcn --channel --packets --slots --group --workers -h --help" ;;
            link) words="--slots --start --workers -h --help" ;;
            whole) words="-h --help" ;;
            groups) words="-h --help" ;;
            help) words="plan check texts compile report chart load read verify page live pcap cells tape orders link whole groups" ;;
            esac
            ;;
        esac
    fi
    COMPREPLY=($(compgen -W "$words" -- "$word"))
}

complete -F _warnc warnc
