# shellcheck shell=sh disable=SC2154
# `show DIR --values`: what `show DIR --json` writes, with values of JSON in place of the texts that Lisp prints. It is a part of the script
# `pazturrok`, and no command.

show_values() {
    tell_no_store "$@"
    for word in "$@"; do
        shift
        case $word in --values | --json) ;; --forms | --count) refuse "show --values knows no $word" ;; *) set -- "$@" "$word" ;; esac
    done
    room=$(mktemp -d "${TMPDIR:-/tmp}/pazturrok-show.XXXXXX") || exit 3
    trap 'rm -rf "$room"' EXIT
    trap 'exit 129' HUP
    trap 'exit 130' INT
    trap 'exit 143' TERM
    written=0
    {
        status=0
        "$program" "$@" --json || status=$?
        echo "$status" >"$room/status"
    } | LC_ALL=C awk -f "$parts/json_values.awk" 2>"$room/told" || written=$?
    status=$(cat "$room/status")
    [ "$status" -eq 0 ] || exit "$status"
    # who reads may go before the end, as head does
    case $written in 0 | 2 | 141) ;; *) cat "$room/told" >&2 && exit 3 ;; esac
}
