# Completions for bash, which completions/write makes from the help of the program. To use them in a clone:
#
#   . completions/pazturrok.bash
_pazturrok() {
    local word=${COMP_WORDS[COMP_CWORD]} words='' kind=-d
    COMPREPLY=()
    case ${COMP_WORDS[1]} in
        help) words='run snapshot upgrade export dump verify show info log backup check help' kind= ;;
        compile) words=--library kind= ;;
        build) words='--anew --library' kind= ;;
        install) words='--all --replace' ;;
        release) kind=-f ;;
        run)
            words='--existing --rescue --strict --group --snapshot-every --snapshot-ratio --quiet --one-sync --help --operators --wait --messages'
            case " ${COMP_WORDS[*]} " in
                *' --messages '*) words='--existing --messages --snapshot-every --one-sync --help --operators --wait' ;;
                *' --rescue '* | *' --strict '* | *' --group '* | *' --snapshot-ratio '* | *' --quiet '*) words='--existing --rescue --strict --group --snapshot-every --snapshot-ratio --quiet --one-sync --help --operators --wait' ;;
            esac
            ;;
        snapshot) words='--existing --one-sync --help' ;;
        upgrade) words='--existing --one-sync --help' ;;
        export) words='--existing --data --help' ;;
        dump) words='--existing --at --help' ;;
        verify) words='--existing --json --help --sums' ;;
        show) words='--existing --package --indicator --like --forms --json --count --help --where --html --force --values' ;;
        info) words='--existing --files --json --help' ;;
        log) words='--existing --from --places --json --help --follow' ;;
        backup) words='--existing --help --at' ;;
        check) words='--store --json --help --run' kind=-f ;;
    esac
    if [ "$COMP_CWORD" -eq 1 ]; then
        words='run snapshot upgrade export dump verify show info log backup check help operators compile build install release uninstall --help --version'
        kind=
    fi
    case ${COMP_WORDS[COMP_CWORD - 1]} in
        --at | --from | --indicator | --like | --package | --snapshot-every | --snapshot-ratio | --wait | --where) return ;;
        --store) kind=-d words='' ;;
        --html | --sums) kind=-f words='' ;;
    esac
    if [ -z "$kind" ] || [ "${word#-}" != "$word" ]; then
        mapfile -t COMPREPLY < <(compgen -W "$words" -- "$word")
    else
        mapfile -t COMPREPLY < <(compgen "$kind" -- "$word")
    fi
}
complete -o filenames -F _pazturrok pazturrok
