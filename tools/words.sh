# shellcheck shell=sh disable=SC2154
# Words that nobody knows, and which known word was meant. It is a part of the script `pazturrok`, and no command.

# The words of this script that are no commands of the program.
own_words() {
    echo operators uninstall
    [ -z "$is_clone" ] || echo compile build install release
}

# The options of a command that this script carries out.
own_options() {
    case $1 in
        run) echo --operators --wait ;;
        check) echo --run ;;
        show) echo --where --html --force --values ;;
        log) echo --follow ;;
        backup) echo --at ;;
        verify) echo --sums ;;
    esac
}

# The word among those after the first that is nearest to the first, if one letter in three at most is wrong, missing, too many or has changed its
# place with the next one; of a short word one letter. Of two that are as near it is the one that comes first.
nearest() {
    wanted=$1
    shift
    printf '%s\n' "$@" | awk -v wanted="$wanted" '
        function least(one, other) { return one < other ? one : other }
        function letter(text, at) { return substr(text, at, 1) }
        function distance(one, other,    at, to, far, price) {
            for (at = 0; at <= length(one); at++)
                for (to = 0; to <= length(other); to++) {
                    if (at == 0 || to == 0) {
                        far[at, to] = at + to
                        continue
                    }
                    price = letter(one, at) != letter(other, to)
                    far[at, to] = least(least(far[at - 1, to], far[at, to - 1]) + 1, far[at - 1, to - 1] + price)
                    if (at > 1 && to > 1 && letter(one, at) == letter(other, to - 1) && letter(one, at - 1) == letter(other, to))
                        far[at, to] = least(far[at, to], far[at - 2, to - 2] + 1)
                }
            return far[length(one), length(other)]
        }
        BEGIN { limit = length(wanted) < 6 ? 1 : int(length(wanted) / 3) }
        length($0) - length(wanted) <= limit && length(wanted) - length($0) <= limit {
            far = distance(wanted, $0)
            if (far <= limit && (found == "" || far < best)) {
                best = far
                found = $0
            }
        }
        END { print found }'
}

# The commands of the program, as its help has them.
commands() {
    help_of_commands | sed -n '/^Commands:/,/^$/ s/^  \([a-z][a-z-]*\) .*/\1/p'
}

# Whether a word is a command of the program.
is_command() {
    [ "$(commands | grep -Fx -e "$1")" = "$1" ]
}

# Refuses what is no command.
refuse_command() {
    # shellcheck disable=SC2046 # a word each
    found=$(nearest "$1" $(commands) $(own_words) --help --version)
    refuse "there is no command '$1'; ${found:+did you mean $found? }those of the program are $(commands | paste -sd ' ' -), and those of this script $(own_words | paste -sd ' ' -)"
}

# Refuses a command that there is not.
look_at_command_word() {
    case $1 in
        run | snapshot | upgrade | export | dump | verify | show | info | log | backup | check | help) return 0 ;;
        '' | -h | --help | -V | --version) return 0 ;;
    esac
    is_command "$1" || refuse_command "$1"
}

# Refuses a form among the words after the folder of a session.
look_at_form_words() {
    [ "$1" = run ] || return 0
    find_folder "$@"
    for word in "$@"; do
        case $word in
            "$folder") ;;
            '('*) refuse "run takes its forms from standard input: echo \"FORM\" | ${is_clone:+./}pazturrok run $folder" ;;
        esac
    done
}

# Refuses a command, an option or a form where the program would refuse it, and more can be said of it here.
look_at_own_words() {
    if [ "$1" = help ]; then
        look_at_command_word "${2:-}"
    else
        look_at_command_word "$1"
        look_at_option_words "$@"
        look_at_form_words "$@"
    fi
}

# Refuses an option that a command has not, where one is meant that this script carries out. What begins with another letter is left to the program.
look_at_option_words() {
    command=$1
    shift
    for word in "$@"; do
        case $command,$word in
            *,--) return 0 ;;
            *,--help | *,--help=*) continue ;;
            run,--o* | run,--w* | check,--r* | show,--h* | show,--forc* | show,--v* | show,--w* | log,--fo* | backup,--a* | verify,--s*) ;;
            *) continue ;;
        esac
        word=${word%%=*}
        # shellcheck disable=SC2046 # a word each
        found=$(nearest "$word" $(own_options "$command"))
        [ -z "$found" ] || [ "$found" = "$word" ] || refuse "$command knows no $word; did you mean $found?"
    done
}

# Refuses what is neither an operator nor a command.
refuse_operator() {
    # shellcheck disable=SC2046 # a word each
    found=$(nearest "$1" $(ask_pages all | sed -n 's/^@ \([^0-9]\)/\1/p'))
    refuse "there is no operator and no command '$1'; ${found:+did you mean $found? }docs/use/operators.md has the operators, and other-lisps.md what other Lisps have"
}
