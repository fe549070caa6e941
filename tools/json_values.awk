# Lines of `show DIR --json` with values of JSON in place of the texts that Lisp prints.
#
#   an integer                   a number; from 2^53 on {"integer":"9007199254740992"}
#   a ratio                      {"ratio":"1/2"}
#   a text                       a string, in which a reference as &#xFC; is its character again
#   T, and NIL                   true, and the empty array
#   a list                       an array; with a tail that is no list {"list":[1],"tail":2}
#   a vector                     {"vector":[1]}
#   a character                  {"character":"a"}
#   a symbol                     {"symbol":"SHOP::APPLE"}, as it is printed
#
# A text is taken apart into units, each a character, or a number as \u000A where JSON writes one so.

BEGIN {
    names["Backspace"] = "\\u0008"
    names["Tab"] = "\\u0009"
    names["Newline"] = "\\u000A"
    names["Linefeed"] = "\\u000A"
    names["Page"] = "\\u000C"
    names["Return"] = "\\u000D"
    names["Space"] = " "
    names["Rubout"] = "\\u007F"
    DIGITS = "0123456789ABCDEF"
    REFERENCE = "^&#x(26|[89A-F][0-9A-F]|[1-9A-F][0-9A-F][0-9A-F]|[1-9A-F][0-9A-F][0-9A-F][0-9A-F]|[1-9A-F][0-9A-F][0-9A-F][0-9A-F][0-9A-F]|10[0-9A-F][0-9A-F][0-9A-F][0-9A-F]);"
}

# Takes the inside of a string of JSON apart into units.
function take_apart(text,    at, letter) {
    count = 0
    for (at = 1; at <= length(text); at++) {
        letter = substr(text, at, 1)
        if (letter == "\\") {
            letter = substr(text, ++at, 1)
            if (letter == "u") {
                letter = substr(text, at - 1, 6)
                at += 4
            }
        }
        units[++count] = letter
    }
    units[count + 1] = ""
}

function escaped(unit) {
    return unit == "\"" || unit == "\\" ? "\\" unit : unit
}

# The number that hexadecimal digits stand for, and four such digits.
function number_of(digits,    at, number) {
    for (at = 1; at <= length(digits); at++)
        number = number * 16 + index(DIGITS, substr(digits, at, 1)) - 1
    return number
}

function four_digits(number,    at, text) {
    for (at = 1; at <= 4; at++) {
        text = substr(DIGITS, number % 16 + 1, 1) text
        number = int(number / 16)
    }
    return text
}

# A character past ASCII, or an ampersand, in a string of JSON.
function character_of(number) {
    if (number == 38)
        return "&"
    if (number < 65536)
        return "\\u" four_digits(number)
    number -= 65536
    return "\\u" four_digits(55296 + int(number / 1024)) "\\u" four_digits(56320 + number % 1024)
}

# The reference that begins here, from the ampersand on; nothing where none does. Halves of a pair are no characters.
function reference(    text, at) {
    if (units[place] != "&" || units[place + 1] != "#" || units[place + 2] != "x")
        return ""
    text = ""
    for (at = place; at < place + 10 && at <= count; at++)
        text = text units[at]
    if (!match(text, REFERENCE) || text ~ /^&#xD[89A-F]..;/)
        return ""
    return substr(text, 1, RLENGTH)
}

# What is written comes in pieces, and the last one grows no longer than this.
function put(text) {
    if (length(pieces[piece_count]) > 500)
        pieces[++piece_count] = ""
    pieces[piece_count] = pieces[piece_count] text
}

# Each of these puts the JSON of what begins at `place`, and leaves `place` after it.
function put_text(    found) {
    put("\"")
    for (place++; units[place] != "\"" && place <= count; place++) {
        found = reference()
        if (found != "") {
            put(character_of(number_of(substr(found, 4, length(found) - 4))))
            place += length(found) - 1
        } else {
            if (units[place] == "\\")
                place++
            put(escaped(units[place]))
        }
    }
    place++
    put("\"")
}

function put_items(is_vector,    begins, is_dotted, is_later) {
    begins = ++piece_count
    pieces[begins] = is_vector ? "{\"vector\":[" : "["
    pieces[++piece_count] = ""
    for (place++; units[place] != ")" && place <= count; is_later = 1) {
        if (units[place] == " ")
            place++
        if (!is_vector && units[place] == "." && units[place + 1] == " ") {
            place += 2
            pieces[begins] = "{\"list\":["
            is_dotted = 1
            put("],\"tail\":")
        } else if (is_later)
            put(",")
        put_object()
    }
    place++
    put(is_dotted ? "}" : is_vector ? "]}" : "]")
}

function put_character(    name) {
    place += 2
    name = escaped(units[place++])
    while (units[place] != " " && units[place] != ")" && place <= count)
        name = name units[place++]
    put("{\"character\":\"" (name in names ? names[name] : name) "\"}")
}

# The token that begins here, as it is printed.
function token(    text, is_name) {
    text = ""
    while (place <= count && (is_name || (units[place] != " " && units[place] != ")"))) {
        if (units[place] == "|")
            is_name = !is_name
        if (units[place] == "\\")
            text = text escaped(units[place++])
        text = text escaped(units[place++])
    }
    return text
}

function put_token(    text, digits) {
    text = token()
    digits = text
    sub(/^-/, "", digits)
    if (digits ~ /^[0-9]+$/)
        put(length(digits) < 16 || (length(digits) == 16 && digits "" < "9007199254740992") ? text : "{\"integer\":\"" text "\"}")
    else if (digits ~ /^[0-9]+\/[0-9]+$/)
        put("{\"ratio\":\"" text "\"}")
    else if (text ~ /^(COMMON-LISP::?)?T$/)
        put("true")
    else if (text ~ /^(COMMON-LISP::?)?NIL$/)
        put("[]")
    else
        put("{\"symbol\":\"" text "\"}")
}

function put_object() {
    if (units[place] == "\"")
        put_text()
    else if (units[place] == "(")
        put_items(0)
    else if (units[place] == "#" && units[place + 1] == "(") {
        place++
        put_items(1)
    } else if (units[place] == "#" && units[place + 1] == "\\")
        put_character()
    else
        put_token()
}

# Every quotation mark within a string has a backslash before it, so this begins the value and nothing else does.
{
    begins = index($0, "\",\"value\":\"")
    if (!begins) {
        print
        next
    }
    begins += length("\",\"value\":\"") - 1
    take_apart(substr($0, begins + 1, length($0) - begins - 2))
    place = piece_count = 1
    pieces[1] = substr($0, 1, begins - 1)
    put_object()
    put("}")
    for (at = 1; at <= piece_count; at++)
        printf "%s", pieces[at]
    print ""
}
