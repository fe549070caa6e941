# shellcheck shell=sh disable=SC2154
# `check --run`: the forms of a file are carried out over a store of their own, in memory where there is such a place, and each form that is refused
# is told with its place and its text. Nothing else is written. It is a part of the script `pazturrok`, and no command.
#
# The place of a refusal is that of a strict session, which ends there. The next session takes what comes after the form, over the same store.

# Sets `file` and `store` to what the words name, which may be nothing.
read_words_of_check() {
    shift
    file='' store='' before=''
    for word in "$@"; do
        case $before,$word in
            --store,*) store=$word ;;
            *,--store=*) store=${word#*=} ;;
            *,--run | *,--store) ;;
            *,-?*) refuse "check --run knows no $word; its words are [FILE] [--store DIR]" ;;
            *)
                [ -z "$file" ] || refuse "check --run takes one file, and not $file and $word"
                file=$word
                ;;
        esac
        if [ "$before" = --store ]; then before=''; else before=$word; fi
    done
    [ "$before" != --store ] || refuse "a folder is missing after --store"
}

# Sets `room`, a folder that goes when this process ends.
make_room() {
    round=${TMPDIR:-/tmp}
    [ ! -w /dev/shm ] || round=/dev/shm
    room=$(mktemp -d "$round/pazturrok-check.XXXXXX") || exit 3
    trap 'rm -rf "$room"' EXIT
    trap 'exit 129' HUP
    trap 'exit 130' INT
    trap 'exit 141' PIPE
    trap 'exit 143' TERM
}

# Ends as the program did, with what it told.
end_as_told() {
    cat "$room/told" >&2
    exit "$1"
}

# The file, and a copy of the store that is named.
fill_room() {
    case $file in
        '' | -) cat >"$room/rest" ;;
        *)
            if [ ! -r "$file" ] || [ -d "$file" ]; then refuse "$file is no file that can be read"; fi
            cat -- "$file" >"$room/rest" || exit 3
            ;;
    esac
    status=0
    [ -z "$store" ] || lacks_store "$store" || :
    [ -z "$store" ] || "$program" backup "$store" "$room/store" >"$room/told" 2>&1 || status=$?
    [ "$status" -eq 0 ] || end_as_told "$status"
}

# Whether there is one form in so many first bytes of the text from a refused form on, be it whole or not; sets `is_whole`.
has_one_form() {
    head -c "$1" "$room/from" >"$room/part"
    counted=$("$program" check "$room/part" --store "$room/store" | tail -n 1)
    is_whole=
    [ "$counted" != 'forms 1 unreadable 0' ] || is_whole=1
    case $counted in 'forms 1 '*) ;; *) return 1 ;; esac
}

# Sets `length`, how many bytes of the text from a refused form on come before the next form.
find_length() {
    all=$(wc -c <"$room/from") length=0 lines=1
    while :; do
        next=$(head -n "$lines" "$room/from" | wc -c)
        has_one_form "$next" || break
        length=$next
        if [ -n "$is_whole" ] || [ "$length" -ge "$all" ]; then return; fi
        lines=$((lines * 2))
    done
    while [ "$((next - length))" -gt 1 ]; do
        middle=$(((length + next) / 2))
        if has_one_form "$middle"; then length=$middle; else next=$middle; fi
    done
}

# Writes a line. Who reads it may go before the end, as `head` does: then this ends too, and says nothing.
tell() {
    printf '%s\n' "$1" 2>/dev/null || exit 3
}

# Tells where the form is that a session over the rest has refused. The words are the numbers of its line: where it was refused, number, name and
# which form it was, and where that began.
tell_place() {
    at_column=$2 from_column=$7
    [ "$1" -gt 1 ] || at_column=$((rest_column + $2 - 1))
    [ "$6" -gt 1 ] || from_column=$((rest_column + $7 - 1))
    tell "line $((rest_line + $1 - 1)), column $at_column: refused with $3 $4 in form $((forms + $5)), which began at line $((rest_line + $6 - 1)), column $from_column"
}

# Tells the first line of a text, as far as a terminal has room.
tell_text() {
    tell "    $(sed -n 1p | LC_ALL=C tr -d '\000-\037\177-\377' | cut -c 1-100)"
}

# Tells the line where a form cannot be read, or has no end, and leaves what comes after it, as `check` does. The words are those of `tell_place`.
pass_line() {
    if [ "$3" -eq "$END_OF_FILE" ]; then
        tail -n "+$6" "$room/rest" | tail -c "+$7" | tell_text
    else
        tail -n "+$1" "$room/rest" | tell_text
    fi
    tail -n "+$(($1 + 1))" "$room/rest" >"$room/next"
    rest_line=$((rest_line + $1)) rest_column=1
}

# Tells a form that was read and refused, and leaves what comes after it. The words are the line and the column where it began.
pass_form() {
    tail -n "+$1" "$room/rest" | tail -c "+$2" >"$room/from"
    find_length
    head -c "$length" "$room/from" | tell_text
    tail -c "+$((length + 1))" "$room/from" >"$room/next"
    if [ "$1" -gt 1 ]; then rest_column=$2; else rest_column=$((rest_column + $2 - 1)); fi
    rest_line=$((rest_line + $1 - 1))
    ends=$(head -c "$length" "$room/from" | wc -l)
    if [ "$ends" -gt 0 ]; then
        rest_line=$((rest_line + ends))
        rest_column=$((length - $(head -c "$length" "$room/from" | head -n "$ends" | wc -c) + 1))
    else
        rest_column=$((rest_column + length))
    fi
}

# The numbers and the name of the line on a refusal.
REFUSAL='s/^line \([0-9]*\), column \([0-9]*\): refused with \([0-9]*\) \([A-Z-]*\) in form \([0-9]*\), which began at line \([0-9]*\), column \([0-9]*\)$/\1 \2 \3 \4 \5 \6 \7/p'

# The line on what that refusal is about, where the program tells it, without the place and the number before it.
ABOUT='/ (help [0-9]*)$/ { s///; s/^line [0-9]*, column [0-9]*: [0-9]*: //; s/^after [0-9]* bytes: [0-9]*: //; p; }'

# Tells that without the name of the refusal, which is told already. The words are that name, and the line of the file with which the session began,
# from which the program counts the line of a part.
tell_about() {
    about=$(sed -n "$ABOUT" "$room/told" | tail -n 1)
    line=${about##*, in line }
    case $line in
        '' | *[!0-9]*) ;;
        *) about="${about%, in line *}, in line $(($2 + line - 1))" ;;
    esac
    [ -z "$about" ] || tell "    about: ${about#"$1": }"
}

# The number of a text that ends within a form, and the first one of a form that was read.
END_OF_FILE=1
FIRST_OF_EVALUATION=30

check_run() {
    read_words_of_check "$@"
    make_room
    fill_room
    forms=0 refused=0 rest_line=1 rest_column=1 status=1
    while [ "$status" -ne 0 ]; do
        status=0
        "$program" run "$room/store" --strict --quiet <"$room/rest" >"$room/answers" 2>"$room/told" || status=$?
        # shellcheck disable=SC2046 # numbers and a name
        set -- $(sed -n "$REFUSAL" "$room/told")
        case $status,$# in
            0,*) forms=$((forms + $(sed -n 's/^answers \([0-9]*\) .*/\1/p' "$room/told"))) ;;
            1,7)
                tell_place "$@"
                first_line=$rest_line
                if [ "$3" -lt "$FIRST_OF_EVALUATION" ]; then pass_line "$@"; else pass_form "$6" "$7"; fi
                tell_about "$4" "$first_line"
                mv "$room/next" "$room/rest"
                forms=$((forms + $5)) refused=$((refused + 1))
                ;;
            *) end_as_told "$status" ;;
        esac
    done
    tell "forms $forms refused $refused"
    [ "$refused" -eq 0 ] || exit 1
}
