# Lines of `show DIR --json`, of which those of symbols are left of which each condition holds, as PRICE>5: the lines of the variable PAZTURROK_WHERE.
#
# A condition has the name of an indicator, in any case, one of = /= < <= > >=, and a value. A value is given as it is printed, a text also without its
# quotation marks, a symbol in any case, a number also with a decimal point. Numbers are compared as numbers, of any size and exactly. By < and its
# like a text is compared with a text, byte by byte. Of a symbol without such a property no condition holds.
#
# What is written is said by variables: `column` is the name of the indicator whose properties are wanted alone, `count` that they are counted, and
# `json` that it is JSON. Where no property has an indicator that is named, that name goes to the file `unknown`.

function trimmed(text) {
    sub(/^ +/, "", text)
    sub(/ +$/, "", text)
    return text
}

# ---- numbers: digits before and after a slash

# Sets `above`, `below` and `sign` from an integer, a ratio or a decimal number; it fails where a text is none.
function takes_number(text,    parts) {
    sign = text ~ /^-/ ? -1 : 1
    sub(/^[-+]/, "", text)
    below = "1"
    if (text ~ /^[0-9]+\/[0-9]+$/) {
        split(text, parts, "/")
        text = parts[1]
        below = parts[2]
    } else if (text ~ /^[0-9]*\.[0-9]+$/) {
        split(text, parts, ".")
        text = parts[1] parts[2]
        below = parts[2]
        gsub(/[0-9]/, "0", below)
        below = "1" below
    } else if (text !~ /^[0-9]+$/)
        return 0
    sub(/^0+/, "", text)
    sub(/^0+/, "", below)
    above = text == "" ? "0" : text
    if (above == "0")
        sign = 0
    return below != ""
}

# -1, 0 or 1, as the first number is less than the second, equal or greater.
function order_of_digits(one, other) {
    if (length(one) != length(other))
        return length(one) < length(other) ? -1 : 1
    one = "x" one
    other = "x" other
    return one < other ? -1 : one > other
}

function product(one, other,    limbs, count, at, to, place, carry, text) {
    if (one "" == "1" || other "" == "1")
        return one "" == "1" ? other : one
    # limbs of five digits, the least one first
    for (at = 0; length(one) > at * 5; at++)
        for (to = 0; length(other) > to * 5; to++)
            limbs[at + to] += limb(one, at) * limb(other, to)
    count = at + to
    for (place = 0; place <= count; place++) {
        carry += limbs[place]
        text = sprintf("%05d", carry % 100000) text
        carry = int(carry / 100000)
    }
    sub(/^0+/, "", text)
    return text == "" ? "0" : text
}

function limb(digits, at,    end) {
    end = length(digits) - at * 5
    return substr(digits, end > 5 ? end - 4 : 1, end > 5 ? 5 : end) + 0
}

# The order of the number that was taken last, and of one with these parts.
function order_of_numbers(other_sign, other_above, other_below) {
    if (sign != other_sign)
        return sign < other_sign ? -1 : 1
    return sign * order_of_digits(product(above, other_below), product(other_above, below))
}

# ---- texts

# A text with a backslash before each quotation mark and backslash: as it stands in a string of JSON, and in a text that Lisp prints.
function escaped(text,    told, at, letter) {
    for (at = 1; at <= length(text); at++) {
        letter = substr(text, at, 1)
        told = told (letter == "\\" || letter == "\"" ? "\\" : "") letter
    }
    return told
}

# The same without these.
function unescaped(text,    told, at) {
    if (text !~ /\\/)
        return text
    for (at = 1; at <= length(text); at++) {
        if (substr(text, at, 1) == "\\")
            at++
        told = told substr(text, at, 1)
    }
    return told
}

# A text of UTF-8 with a reference for each character past ASCII, as the clients write it.
function with_references(text,    told, at, byte, number, more) {
    for (at = 1; at <= length(text); at++) {
        byte = substr(text, at, 1)
        number = index(HIGH, byte)
        if (!number) {
            told = told byte
            continue
        }
        # 110xxxxx, 1110xxxx and 11110xxx begin a character, 10xxxxxx goes on with it
        number += 127
        more = number >= 240 ? 3 : number >= 224 ? 2 : 1
        number -= more == 3 ? 240 : more == 2 ? 224 : 192
        while (more-- > 0)
            number = number * 64 + index(HIGH, substr(text, ++at, 1)) - 1
        told = told sprintf("&#x%X;", number)
    }
    return told
}

# What a string of JSON stands for; control characters as the lines of `show` have them, and backslashes too where it is for a line.
function told_of(text, is_line,    told, at, letter) {
    if (text !~ /\\\\/) {
        gsub(/\\"/, "\"", text)
        gsub(/\\u00/, "\\x", text)
        return text
    }
    for (at = 1; at <= length(text); at++) {
        letter = substr(text, at, 1)
        if (letter == "\\") {
            letter = substr(text, ++at, 1)
            if (letter == "u") {
                letter = "\\x"
                at += 2
            } else if (is_line && letter == "\\")
                letter = "\\\\"
        }
        told = told letter
    }
    return told
}

# The name of a symbol that is printed, in capitals.
function name_of(printed,    name) {
    if (!(printed in names)) {
        name = told_of(printed, 0)
        sub(/^([^|:]|\|([^|\\]|\\.)*\|)*::?/, "", name)
        if (name ~ /^\|/) {
            name = unescaped(substr(name, 2, length(name) - 2))
        }
        names[printed] = toupper(name)
    }
    return names[printed]
}

# ---- conditions

function take_condition(text) {
    match(text, /\/=|<=|>=|=|<|>/)
    indicators[++conditions] = toupper(trimmed(substr(text, 1, RSTART - 1)))
    signs[conditions] = substr(text, RSTART, RLENGTH)
    text = with_references(trimmed(substr(text, RSTART + RLENGTH)))
    printed_as[conditions] = escaped(text)
    contents[conditions] = text ~ /^".*"$/ ? unescaped(substr(text, 2, length(text) - 2)) : text
    text_as[conditions] = escaped("\"" escaped(contents[conditions]) "\"")
    capitals[conditions] = toupper(printed_as[conditions])
    if (takes_number(text)) {
        number_signs[conditions] = sign
        aboves[conditions] = above
        belows[conditions] = below
    }
}

function is_equal(value, at) {
    if (value == printed_as[at] || value == text_as[at])
        return 1
    return value !~ /^\\"|[(|]/ && toupper(value) == capitals[at]
}

# Whether a condition holds of a value.
function holds(at, value,    wanted, order) {
    wanted = signs[at]
    if ((at in aboves) && takes_number(value))
        order = order_of_numbers(number_signs[at], aboves[at], belows[at])
    else if (wanted == "=" || wanted == "/=")
        order = !is_equal(value, at)
    else if (value ~ /^\\"/) {
        value = "x" unescaped(told_of(substr(value, 3, length(value) - 4), 0))
        order = value < "x" contents[at] ? -1 : value > "x" contents[at]
    } else
        return 0
    if (wanted == "=")
        return order == 0
    if (wanted == "/=")
        return order != 0
    return substr(wanted, 1, 1) == "<" ? order < (wanted == "<=") : order > -(wanted == ">=")
}

# ---- the lines

# Writes the lines of the symbol that ends, if each condition holds of it.
function end_symbol(    at, written) {
    for (at = 1; at <= conditions; at++)
        if (!(at in is_held))
            return
    for (at = 1; at <= kept; at++)
        if (column == "" || name_of(lines[at, "indicator"]) == column) {
            written++
            if (count)
                continue
            if (json)
                print lines[at]
            else
                print told_of(lines[at, "symbol"], 1) " " told_of(lines[at, "indicator"], 1) " " told_of(lines[at, "value"], 1)
        }
    properties += written
    symbols += written > 0
}

BEGIN {
    for (at = 128; at < 256; at++)
        HIGH = HIGH sprintf("%c", at)
    given_count = split(ENVIRON["PAZTURROK_WHERE"], given, "\n")
    for (at = 1; at <= given_count; at++)
        if (given[at] != "")
            take_condition(given[at])
    column = toupper(column)
    properties = symbols = 0
}

# Every quotation mark within a string has a backslash before it, so these end and begin one and nothing else does.
{
    ends = index($0, "\",\"indicator\":\"")
    name = substr($0, 12, ends - 12)
    rest = substr($0, ends + 15)
    ends = index(rest, "\",\"value\":\"")
    indicator = substr(rest, 1, ends - 1)
    value = substr(rest, ends + 11, length(rest) - ends - 12)
    if (name != symbol) {
        if (kept)
            end_symbol()
        symbol = name
        kept = 0
        split("", is_held)
    }
    lines[++kept] = $0
    lines[kept, "symbol"] = name
    lines[kept, "indicator"] = indicator
    lines[kept, "value"] = value
    for (at = 1; at <= conditions; at++)
        if (name_of(indicator) == indicators[at] && holds(at, value))
            is_held[at] = 1
}

END {
    if (kept)
        end_symbol()
    for (printed in names)
        is_known[names[printed]] = 1
    indicators[0] = column == "" ? indicators[1] : column
    for (at = 0; at <= conditions; at++)
        if (!(indicators[at] in is_known)) {
            print indicators[at] >unknown
            exit
        }
    if (count && json)
        print "{\"properties\":" properties ",\"symbols\":" symbols "}"
    else if (count)
        print "properties " properties " symbols " symbols
}
