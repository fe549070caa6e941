# shellcheck shell=sh disable=SC2034,SC2154
# What `pazturrok` does in a clone of the repository, where it also makes the program. It is a part of that script, and no command.

crate=$top/crates/store_program
# The proved program, and beside it the one that is compiled without proof. Of each, what it was made from: a sum of the sources, and the commit
# that they are of.
proved=$crate/out/store_program
built_from=$crate/out/built_from
compiled=$crate/out/compiled_program
compiled_from=$crate/out/compiled_from
texts=$top/crates/command_words/src/help.rt
# The static library for C, proved and compiled.
for_c=$top/crates/pazturrok_c
proved_library=$for_c/out/libpazturrok_c.a
compiled_library=$for_c/out/compiled_library.a

OTHER_SOURCES="the program was built from other sources than those of this clone; ./pazturrok build proves and builds it anew, ./pazturrok compile compiles it without proof"

# ---- rooms, and turns

# Makes a folder that goes when the script ends, however it ends, with what is beside it under its name, and sets `room`.
make_room() {
    room=$(mktemp -d "${TMPDIR:-/tmp}/pazturrok-XXXXXX") || refuse "no folder can be made in ${TMPDIR:-/tmp}"
    trap 'rm -rf "$room" "$room.tmp" || true' EXIT
    trap 'exit 129' HUP
    trap 'exit 130' INT
    trap 'exit 143' TERM
}

leave_room() {
    rm -rf "$room" "$room.tmp"
    trap - EXIT HUP INT TERM
}

# How many megabytes are free where a folder stands.
megabytes_free() {
    df -Pk "$1" | awk 'NR == 2 { print int($4 / 1024) }'
}

# Waits until no other call of this clone does the same, which the first word names.
take_turn() {
    if ! { mkdir -p "$crate/out" && : >>"$crate/out/$1"; } 2>/dev/null; then
        refuse "$crate/out cannot be written, and the program is kept there"
    fi
    exec 9>>"$crate/out/$1"
    if ! flock -n 9; then
        say "another call is $1 in this clone: waiting for it"
        flock 9
    fi
}

leave_turn() {
    exec 9>&-
}

require_rt() {
    command -v rt >/dev/null || refuse "rt, the command that compiles and proves, is not found: CONTRIBUTING.md says how to set up"
}

# ---- the sources

# The crates that a crate stands on, and it, each after those that it uses.
crates_of() {
    awk -F: -v wanted="$1" '
        /^[a-z]/ { split($1, head, " "); libraries[head[1]] = $2 }
        function visit(name,    uses, count, at) {
            if (name in seen || !(name in libraries))
                return
            seen[name] = 1
            count = split(libraries[name], uses, " ")
            for (at = 1; at <= count; at++)
                visit(uses[at])
            print name
        }
        END { visit(wanted) }' "$top/crates.txt"
}

# The crate whose sources are looked at: that of the program, or that of the library.
sources_of=store_program

# The folders of all that it is compiled from, below the clone.
sources() {
    crates_of "$sources_of" | sed 's|.*|crates/&/src|'
}

# A sum of what is in them.
sum_of_sources() {
    # shellcheck disable=SC2046 # a folder each
    (cd "$top" && find $(sources) -type f 2>/dev/null | LC_ALL=C sort | xargs sha256sum | sha256sum | cut -d ' ' -f 1)
}

# Whether something in them was changed after a file.
are_sources_newer() {
    # shellcheck disable=SC2046 # a folder each
    [ -n "$(cd "$top" && find $(sources) -newer "$1" 2>/dev/null | head -n 1)" ]
}

# The commit of the clone, with `-dirty` behind it where a file of it differs.
commit_of_sources() {
    git -C "$top" describe --always --dirty --abbrev=40 --exclude '*' 2>/dev/null || echo unknown
}

# Keeps in a file what a program was made from: the sum of the sources, and their commit.
keep_sources() {
    printf 'sources: %s\ncommit: %s\n' "$2" "$3" >"$1"
}

# Whether the word on what a program was made from is of this program, and not of an older one.
knows_sources() {
    [ -f "$2" ] && [ -z "$(find "$1" -newer "$2")" ]
}

# Whether a program is that of the sources, as far as is known: without a word beside it, as `rt ci` leaves it, it is if none of them is newer.
is_of_sources() {
    [ -f "$1" ] || return 1
    if knows_sources "$1" "$2"; then
        ! are_sources_newer "$2" || [ "$(sed -n 's/^sources: //p' "$2")" = "$(sum_of_sources)" ]
    else
        ! are_sources_newer "$1"
    fi
}

# ---- which program

# Sets `program`, what it was made from, and whether it is proved: that of the sources, the proved one before the other, or else an older proved
# one. With neither `program` is empty.
choose_program() {
    program=$proved made_from=$built_from is_proved=1 is_older=
    if ! is_of_sources "$proved" "$built_from"; then
        if is_of_sources "$compiled" "$compiled_from"; then
            program=$compiled made_from=$compiled_from is_proved=
        elif [ -x "$proved" ]; then
            is_older=1
        else
            program='' is_proved=
        fi
    fi
}

# Compiles the program, unless a call that went before has done so.
compile_program() {
    require_rt
    take_turn compiling
    compile_into "$compiled" "$compiled_from"
    leave_turn
}

compile_library() {
    require_rt
    take_turn compiling
    mkdir -p "$for_c/out" || refuse "$for_c/out cannot be made, and the library is kept there"
    sources_of=pazturrok_c
    compile_into "$compiled_library" "$for_c/out/compiled_from" --library
    sources_of=store_program
    leave_turn
    say "the library is $NOT_PROVED. make -C clients/c ENGINE=$compiled_library takes it"
}

# Compiles into a file, beside which stands what it was made from.
compile_into() {
    if ! is_of_sources "$1" "$2"; then
        sum=$(sum_of_sources) commit=$(commit_of_sources)
        # shellcheck disable=SC2086 # none, or --library
        "$top/tools/compile" ${3:-} "$1" &
        attend $!
        [ "$status" -eq 0 ] || exit "$status"
        keep_sources "$2" "$sum" "$commit"
    fi
}

# ---- before there is a program

# A text of the help, by its name in the sources.
text_of() {
    awk -v name="$1" '
        index($0, "pub const " name ": ") == 1 { is_in = 1 }
        is_in { text = text $0 }
        is_in && /";$/ {
            sub(/^[^"]*"/, "", text)
            sub(/";$/, "", text)
            gsub(/\\n/, "\n", text)
            gsub(/\\"/, "\"", text)
            print text
            exit
        }' "$texts"
}

# The help of the program, as the sources have it.
help_of_commands() {
    text_of PROGRAM_HELP
}

# The help of a command: what it does, how it is called, and the end of its help, by their name in the sources. What its options are, the program
# itself tells.
help_of_command() {
    name=$(echo "${2:-$1}" | tr '[:lower:]' '[:upper:]')
    text_of PROGRAM_HELP | sed -n "s/^  $1  *//p"
    printf '\nUsage: %s\n\n' "$(text_of "${name}_USAGE")"
    text_of "${name}_HELP"
    case $1 in
        run) printf '\n%s\n' "$OWN_HELP" ;;
        check) printf '\n%s\n' "$OWN_HELP_OF_CHECK" ;;
        show) printf '\n%s\n' "$OWN_HELP_OF_SHOW" ;;
        log) printf '\n%s\n' "$OWN_HELP_OF_LOG" ;;
        verify) printf '\n%s\n' "$OWN_HELP_OF_VERIFY" ;;
        backup) printf '\n%s\n' "$OWN_HELP_OF_BACKUP" ;;
    esac
}

# Answers words that ask for help or the version from the texts of the sources, and ends.
answer_from_texts() {
    case $1 in
        -V | --version)
            sed -n 's/^const PROGRAM_VERSION: .*"\(.*\)";/pazturrok \1/p' "$top/crates/command_words/src/task_lines.rt"
            echo "of the sources: no program of them is compiled or proved yet"
            exit
            ;;
        help) command=${2:-} ;;
        -*) command= ;;
        *) command=$1 ;;
    esac
    case $command in
        '' | help | -*) write_help "$(text_of PROGRAM_HELP && printf '\n%s\n' "$PAGES_HELP" && words_of_clone)" ;;
    esac
    is_command "$command" || refuse_command "$command"
    texts_of=$command
    case " $* " in *' --messages '*) texts_of=messages ;; esac
    write_help "$(help_of_command "$command" "$texts_of")"
}

# The words of a command, as the texts of its help and this script have them: DIR [--strict] [--snapshot-every N], say. With --messages `run` has others.
words_of() {
    usage=$(printf '%s_USAGE' "$1" | tr '[:lower:]' '[:upper:]')
    case $1," $* " in run,*' --messages '*) usage=MESSAGES_USAGE ;; esac
    text_of "$usage" | sed -n "1s/^.*pazturrok $1 //p" | sed 's/ --messages/ [--messages]/'
    case $1 in show | backup | log | info) echo '[--existing]' ;; esac
}

# Refuses an option that a command has not.
refuse_option() {
    # shellcheck disable=SC2046 # a word each
    found=$(nearest "${2%%=*}" $(echo "$known" | grep -o -e '--[a-z-]*'))
    refuse "$1 knows no $2; ${found:+did you mean $found? }its words are$known"
}

# Refuses words that a command would refuse, before anything is compiled for it, and sets `folder` and `second`, the words that are no option and no
# value of one. Numbers are left to the program.
look_at_words() {
    command=$1 known=" $(words_of "$@" | paste -sd ' ' -) " folder='' second='' is_value=''
    shift
    for word in "$@"; do
        case $is_value$word in
            value*) is_value= ;;
            --*)
                case $known in
                    *" [$word]"* | *" [${word%%=*} "*) ;;
                    *) refuse_option "$command" "$word" ;;
                esac
                case $known in *" [$word "*) is_value=value ;; esac
                ;;
            -?*) refuse_option "$command" "$word" ;;
            *) take_word "$command" "$word" ;;
        esac
    done
    [ -z "$is_value" ] || refuse "something is missing after $word"
}

# Takes a word of a command that is no option, of which it has one or two.
take_word() {
    case $1,${folder:+folder}${second:+second} in
        *,) folder=$2 ;;
        show,folder | backup,folder) second=$2 ;;
        check,*) refuse "check takes one file, and not $folder and $2" ;;
        show,*) refuse "show takes one symbol, and not $second and $2" ;;
        backup,*) refuse "backup takes two folders, and not $folder, $second and $2" ;;
        *) refuse "$1 takes one folder, and not $folder and $2" ;;
    esac
}

# Refuses a command without the folder that it takes, or with one in which there is no store for it, as the program does.
look_at_folder() {
    case $1,${folder:+folder}${second:+second} in
        check,*) return 0 ;;
        run,) refuse "run takes a folder, as in ./pazturrok run DIR < FORMS" ;;
        backup, | backup,folder) refuse "backup takes two folders, as in ./pazturrok backup DIR DEST" ;;
        *,) refuse "$1 takes a folder, as in ./pazturrok $1 DIR" ;;
        run,*) case " $* " in *' --existing '*) ;; *) return 0 ;; esac ;;
    esac
    if lacks_store "$folder"; then
        (printf '! 60 DEVICE\n%s: there is no store in this folder\n' "$folder" >&2) || :
        exit 3
    fi
}

# Before there is a program: help and the version are told, and what is no command, or no word of `run`, is refused.
look_at_command() {
    [ $# -gt 0 ] || refuse "no command was given; ./pazturrok --help tells which there are"
    case ,$1,$*, in
        ,-h,* | ,--help,* | ,help,* | ,-V,* | ,--version,* | *' --help'[\ ,]* | *' -h'[\ ,]*) answer_from_texts "$@" ;;
    esac
    is_command "$1" || refuse_command "$1"
    look_at_form_words "$@"
    look_at_words "$@"
    look_at_folder "$@"
}

# ---- the words

words_of_clone() {
    printf '\nIn a clone of the repository:\n'
    sed -n '/^#   .\/pazturrok compile/,/^#$/ s/^# //p' "$top/pazturrok"
}

# Carries out a word of a clone, and ends; what is a command of the program is started.
carry_out() {
    case $#,${1:-},${2:-} in
        2,help,compile | 2,help,build | 2,help,install | 2,help,release | 2,help,uninstall) set -- "$2" --help ;;
    esac
    case ${1:-},${2:-} in
        compile,-h | compile,--help | build,-h | build,--help | install,-h | install,--help | release,-h | release,--help)
            write_help "$(sed -n '2,/^set -eu/ s/^# \{0,1\}//p' "$top/pazturrok")"
            ;;
        compile,)
            compile_program
            exit
            ;;
        compile,--library)
            compile_library
            exit
            ;;
        compile,*) refuse "compile takes no word but --library" ;;
        build,*)
            shift
            # shellcheck source=tools/build.sh
            . "$top/tools/build.sh"
            build "$@"
            exit
            ;;
        install,* | release,*)
            # shellcheck source=tools/install.sh
            . "$top/tools/install.sh"
            word=$1
            shift
            "$word" "$@"
            exit
            ;;
        uninstall,*)
            # shellcheck source=tools/uninstall.sh
            . "$top/tools/uninstall.sh"
            shift
            uninstall "$@"
            exit
            ;;
    esac
    [ "$#,${1:-}" != 2,help ] || answer_from_pages "$2"
    choose_program
    if [ -z "$program" ]; then
        look_at_command "$@"
        read_memory
        compile_program
        choose_program
    elif [ -n "$is_older" ]; then
        say "$OTHER_SOURCES"
    fi
    case $#,${1:-} in
        1,help | 1,--help | 1,-h)
            help=$(text_of_help "$@" && words_of_clone) || exit
            write_help "$help"
            ;;
    esac
    start "$@"
}
