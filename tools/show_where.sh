# shellcheck shell=sh disable=SC2154
# `show DIR --where CONDITION`: the properties of the symbols of which a condition holds, as PRICE>5, in one look of the program. It is a part of the
# script `pazturrok`, and no command.

# Takes a condition, in a line of its own. What another language writes in the place of one of the six is refused.
take_condition() {
    sign=${1#"${1%%[=\<\>!]*}"}
    case $sign in
        '<>'* | '!'* | '=='*) refuse "--where writes /= for not equal, and = for equal, and not as in '$1'" ;;
        '=<'* | '=>'*) refuse "--where writes <= and >=, and not as in '$1'" ;;
    esac
    case $1 in
        '' | [=\<\>/]* | *"
"*) ;;
        *[=\<\>]*)
            conditions="$conditions$1
"
            return
            ;;
    esac
    refuse "--where takes a condition, and not '$1': an indicator, one of = /= < <= > >=, and a value, as in --where 'PRICE>5' or --where NAME=red"
}

# Sets what the words ask for. What begins with a hyphen and is none of them is refused.
take_word_of_where() {
    case $1 in
        --values | --json) [ "$layout" = --values ] || layout=$1 ;;
        --count) count=1 ;;
        --existing) ;;
        -?*) refuse "show --where knows no $1; its words are DIR --where CONDITION, --package, --indicator, --like, --json, --values and --count" ;;
        *)
            [ -z "$folder" ] || refuse "show --where takes one folder, and not $folder and $1"
            folder=$1
            ;;
    esac
}

# The lines of symbols of which the conditions hold.
left_lines() {
    PAZTURROK_WHERE=$conditions LC_ALL=C awk -v unknown="$room/unknown" -v column="$column" -v count="$count" -v json="$layout" -f "$parts/where.awk"
}

# The same, as they are to be written.
written_lines() {
    if [ "$layout" = --values ]; then
        left_lines | LC_ALL=C awk -f "$parts/json_values.awk"
    else
        left_lines
    fi
}

show_where() {
    shift
    folder='' conditions='' layout='' column='' count='' before=''
    # what is left of the words is for the program
    for word in "$@"; do
        shift
        case $before,$word in
            --where,*) take_condition "$word" ;;
            --indicator,*) column=$word ;;
            --package,* | --like,*) set -- "$@" "$before=$word" ;;
            *,--where | *,--indicator | *,--package | *,--like)
                before=$word
                continue
                ;;
            *,--where=*) take_condition "${word#*=}" ;;
            *,--indicator=*) column=${word#*=} ;;
            *,--package=* | *,--like=*) set -- "$@" "$word" ;;
            *) take_word_of_where "$word" ;;
        esac
        before=''
    done
    [ -z "$before" ] || refuse "something is missing after $before"
    [ -n "$folder" ] || refuse "a folder is missing: show DIR --where CONDITION"
    [ "$layout,$count" != --values,1 ] || refuse "show --where writes --values or a --count, and not both"
    lacks_store "$folder" || :
    write_where "$@"
}

# Looks at the store, and writes what is left.
write_where() {
    room=$(mktemp -d "${TMPDIR:-/tmp}/pazturrok-show.XXXXXX") || exit 3
    trap 'rm -rf "$room"' EXIT
    trap 'exit 129' HUP
    trap 'exit 130' INT
    trap 'exit 143' TERM
    written=0
    {
        status=0
        "$program" show "$folder" "$@" --json || status=$?
        echo "$status" >"$room/status"
    } | written_lines 2>"$room/told" || written=$?
    status=$(cat "$room/status")
    [ "$status" -eq 0 ] || exit "$status"
    # who reads may go before the end, as head does
    case $written in 0 | 2 | 141) ;; *) cat "$room/told" >&2 && exit 3 ;; esac
    [ ! -e "$room/unknown" ] || refuse "no property has an indicator of the name $(cat "$room/unknown")"
}
