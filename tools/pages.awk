# What the pages say of an operator or of the number of a refusal, as text for a terminal; the list of all operators; or all, as a manual page.
#
# usage: awk -v asked=GET -f pages.awk docs/use/operators.md docs/use/refusals.md docs/run/operating.md
#
# `asked` is the name of an operator or of a variable in upper case, the number or the name of a refusal, `OPERATORS`, `manual`, or `all`: of each
# operator, variable and refusal, and of the list, a line with @ and its name, and then what is told of it. The status is 1 if the pages have none such.

# The kinds of tables, by their first lines.
BEGIN {
    kinds["Form|Value|Writes|Refusals"] = "operator"
    kinds["Form|Value|Refusals"] = "function"
    kinds["Form|Value|Does it write|Refusals"] = "function of the world"
    kinds["Form|Answer|"] = "example"
    kinds["In the table|What it is"] = "letter"
    kinds["In the table of functions|What it is"] = "function letter"
    kinds["Numbers|What it means|What comes next"] = "range"
    kinds["No.|Name|When|Place that is told"] = "refusal"
    kinds["No.|Name|When"] = "refusal"
    kinds["Number|What happened|What to do"] = "fault"
    FUNCTIONS = "An operator of the package PAZTURROK: run DIR --operators makes the plain names known to a store."
    FULL_NAME = " is an operator of the package PAZTURROK: run DIR --operators makes it known to a store."
}

# Where a link leads, as the page that it is in is read: docs/ before its own folder and name.
function page_of(target,    at) {
    sub(/#.*/, "", target)
    if (target == "")
        return "docs/" this_folder "/" this_page
    return "docs/" (sub(/^\.\.\//, "", target) ? target : this_folder "/" target)
}

# A link as text: a page by where it is, words and headings with the page that has them, and code as it stands.
function link_text(link,    text, target) {
    text = target = link
    sub(/\]\(.*/, "", text)
    text = substr(text, 2)
    sub(/^.*\]\(/, "", target)
    target = page_of(substr(target, 1, length(target) - 1))
    if (text ~ /\.md$/)
        return target
    if (text ~ /^[a-z]/ && text !~ /`/)
        return text " (" target ")"
    return text ~ /`/ ? text : "\"" text "\" in " target
}

# A cell without the marks of a page.
function plain(cell) {
    gsub(/\001/, "|", cell)
    while (match(cell, /\[[^]]*\]\([^)]*\)/))
        cell = substr(cell, 1, RSTART - 1) link_text(substr(cell, RSTART, RLENGTH)) substr(cell, RSTART + RLENGTH)
    gsub(/`|\*\*/, "", cell)
    gsub(/^ +| +$/, "", cell)
    return cell
}

# A cell with the words of its links alone.
function without_links(cell) {
    gsub(/\001/, "|", cell)
    while (match(cell, /\[[^]]*\]\([^)]*\)/))
        cell = substr(cell, 1, RSTART - 1) substr(cell, RSTART + 1, index(substr(cell, RSTART), "](") - 2) substr(cell, RSTART + RLENGTH)
    gsub(/`/, "", cell)
    gsub(/^ +| +$/, "", cell)
    return cell
}

# What a form gives, without the sections of the standard that the page has in brackets.
function value_of(cell) {
    gsub(/ \([0-9]+(\.[0-9]+)+\)/, "", cell)
    return cell
}

# Whether a name is among the words of a form, by itself or with its package.
function has_word(form, name,    words, count, at) {
    gsub(/[()\[\]',]/, " ", form)
    count = split(form, words, " ")
    for (at = 1; at <= count; at++)
        if (words[at] == name || words[at] == "PAZTURROK::" name)
            return 1
    return 0
}

# Whether COMMON-LISP has an operator of the name that is asked for, among so many first forms.
function is_operator(count,    at) {
    for (at = 1; at <= count; at++)
        if (!is_function[at] && has_word(forms[at], asked))
            return 1
    return 0
}

# Whether a form has this name at its head.
function has_head(form, name) {
    return index(form, "(" name " ") == 1 || index(form, "(" name ")") == 1
}

# Sets `best`, and the example that is: of the examples the first that has the operator at its head and is accepted is the best one, worth 3. One
# that is refused is worth 2, and one that has the name elsewhere 1.
function choose_example(    at, worth) {
    best = best_at = 0
    for (at = 1; at <= example_count; at++) {
        worth = 0
        if (has_head(examples[at], asked) || (has_head(examples[at], "PAZTURROK::" asked) && !is_operator(forms_before[at])))
            worth = substr(answers[at], 1, 1) == "!" ? 2 : 3
        else if (has_word(examples[at], asked) && substr(answers[at], 1, 1) != "!")
            worth = 1
        if (worth > best) {
            best = worth
            best_at = at
        }
    }
}

# The names in a form of which another form may depend: those of quoted symbols, of packages and of keywords, each between spaces.
function names_in(form,    found, name, parts, count, at) {
    found = " "
    while (match(form, /'[A-Z][A-Z:-]*|[ (]:[A-Z]+|"[A-Z]+"|IN-PACKAGE [A-Z]+/)) {
        name = substr(form, RSTART, RLENGTH)
        form = substr(form, RSTART + RLENGTH)
        gsub(/IN-PACKAGE|['" (]/, "", name)
        count = split(name, parts, ":")
        for (at = 1; at <= count; at++)
            if (parts[at] != "")
                found = found parts[at] " "
    }
    return found
}

# Whether a form names what another form names.
function shares_name(one, other,    names, count, at) {
    count = split(names_in(one), names, " ")
    for (at = 1; at <= count; at++)
        if (index(names_in(other), " " names[at] " "))
            return 1
    return 0
}

# Whether a form changes what is there.
function changes(form) {
    return form ~ /\((PAZTURROK::)?(SETF|INCF|DECF|PUSH|POP|REMPROP|INTERN|EXPORT|IMPORT|USE-PACKAGE|COPY-READTABLE|(MAKE|SET|IN)-[A-Z-]+) /
}

# Tells the example that was chosen, in the session that it is of: before it come the forms that it depends on.
function tell_example(    at) {
    print "In a session:"
    for (at = begins[best_at]; at <= best_at; at++)
        if (at == best_at || (substr(answers[at], 1, 1) != "!" && changes(examples[at]) && shares_name(examples[best_at], examples[at])))
            print "  " examples[at] "\n  " answers[at]
}

# Tells a text behind so many spaces, in lines that a terminal has room for.
function tell(text, indent,    words, count, at, line) {
    count = split(text, words, " ")
    line = ""
    for (at = 1; at <= count; at++) {
        if (line != "" && indent + length(line) + 1 + length(words[at]) > 100) {
            printf "%*s%s\n", indent, "", line
            line = ""
        }
        line = line (line == "" ? "" : " ") words[at]
    }
    if (line != "")
        printf "%*s%s\n", indent, "", line
}

# A text for a manual page.
function escaped(text) {
    gsub(/\\/, "\\e", text)
    gsub(/-/, "\\-", text)
    gsub(/'/, "\\(aq", text)
    gsub(/\^/, "\\(ha", text)
    return text
}

FNR == 1 {
    count = split(FILENAME, path, "/")
    this_page = path[count]
    this_folder = path[count - 1]
}

!/^\|/ {
    kind = ""
    is_head = 1
    next
}

/^\|[-|]*\|$/ { next }

{
    line = $0
    gsub(/\\\|/, "\001", line)
    count = split(line, cells, "|")
    head = ""
    for (at = 2; at < count; at++) {
        raw[at] = cells[at]
        cells[at] = plain(cells[at])
        head = head (at > 2 ? "|" : "") cells[at]
    }
}

is_head {
    is_head = 0
    kind = cells[2] == "For" ? "group" : kinds[head]
    first_example = example_count + 1
    next
}

kind == "group" {
    purposes[++group_count] = without_links(raw[2])
    in_each[group_count] = without_links(raw[3])
    after_operators[group_count] = without_links(raw[4])
}

kind == "operator" {
    forms[++form_count] = cells[2]
    values[form_count] = value_of(cells[3])
    writes[form_count] = cells[4]
    refusals[form_count] = cells[5]
}

kind == "function of the world" {
    forms[++form_count] = cells[2]
    values[form_count] = value_of(cells[3])
    writes[form_count] = cells[4]
    refusals[form_count] = cells[5]
    is_function[form_count] = 1
}

kind == "function" {
    forms[++form_count] = cells[2]
    values[form_count] = value_of(cells[3])
    writes[form_count] = "no"
    refusals[form_count] = cells[4]
    is_function[form_count] = 1
}

kind == "example" {
    examples[++example_count] = cells[2]
    answers[example_count] = cells[3]
    begins[example_count] = first_example
    # of the operators only those that the tables before it have are known
    forms_before[example_count] = form_count
}

kind == "letter" || kind == "function letter" {
    letters[++letter_count] = cells[2]
    meanings[letter_count] = cells[3]
    is_of_functions[letter_count] = kind != "letter"
}

kind == "range" {
    ranges[++range_count] = cells[2]
    range_means[range_count] = cells[3]
    range_next[range_count] = cells[4]
}

kind == "refusal" {
    numbers[++number_count] = cells[2] + 0
    names[number_count] = cells[3]
    causes[number_count] = cells[4]
    places[number_count] = count > 5 ? cells[5] : ""
}

kind == "fault" {
    faults[++fault_count] = cells[2]
    fault_does[fault_count] = cells[4]
}

# Whether a number is in a text like "60 to 68, 90".
function is_in(number, text,    parts, count, at, ends) {
    count = split(text, parts, ", ")
    for (at = 1; at <= count; at++) {
        if (split(parts[at], ends, " to ") == 1)
            ends[2] = ends[1]
        if (number >= ends[1] + 0 && number <= ends[2] + 0)
            return 1
    }
    return 0
}

function tell_refusal(at,    other) {
    print numbers[at] " " names[at]
    tell(causes[at], 2)
    if (places[at] != "" && places[at] != "none")
        tell("Place that is told: " places[at], 2)
    for (other = 1; other <= range_count; other++)
        if (is_in(numbers[at], ranges[other]))
            tell("What comes next: " range_means[other] "; " range_next[other], 2)
    for (other = 1; other <= fault_count; other++)
        if (faults[other] == numbers[at] " " names[at])
            tell("What to do: " fault_does[other], 2)
        else if (index(faults[other], numbers[at] " " names[at] ",") == 1)
            tell("What to do after " faults[other] ": " fault_does[other], 2)
}

# Tells what the letters of the forms stand for, of which there are those in `text`; of operators or of functions.
function tell_letters(text, of_functions,    at, words, count, word) {
    for (at = 1; at <= letter_count; at++) {
        if (is_of_functions[at] != of_functions)
            continue
        count = split(letters[at], words, ", ")
        for (word = 1; word <= count; word++)
            if (has_word(text, words[word])) {
                tell(letters[at] ": " meanings[at], 2)
                break
            }
    }
}

function tell_operator(    at, found, text, of_functions, of_package) {
    choose_example()
    for (at = 1; at <= form_count; at++)
        if (has_word(forms[at], asked)) {
            found = 1
            of_functions = is_function[at] && (text == "" || of_functions)
            of_package = of_package || has_head(forms[at], "PAZTURROK::" asked)
            print forms[at]
            tell("Value: " values[at], 2)
            tell("Writes: " writes[at], 2)
            if (refusals[at] != "")
                tell("Refused with: " refusals[at], 2)
            text = text " " forms[at]
        }
    if (!found && !(best && asked ~ /^\*.*\*$/))
        return 0
    if (found) {
        print ""
        tell_letters(text, of_functions)
        if (of_functions)
            tell(FUNCTIONS, 2)
        else if (of_package)
            tell("PAZTURROK::" asked FULL_NAME, 2)
    }
    if (best) {
        if (found)
            print ""
        tell_example()
    }
    print "\nEach form is also refused as docs/use/operators.md has it. `help NUMBER` tells of a refusal."
    return 1
}

# The names of all operators, by what they are for.
function tell_groups(    at) {
    print "In each store:"
    for (at = 1; at <= group_count; at++)
        if (in_each[at] != "")
            tell(purposes[at] ": " in_each[at], 2)
    print "\nAfter run DIR --operators, or with PAZTURROK:: before the name in a store that has the package:"
    for (at = 1; at <= group_count; at++)
        if (after_operators[at] != "")
            tell(purposes[at] ": " after_operators[at], 2)
    print "\n`help GET` tells of one of them; docs/use/operators.md has all."
    return group_count > 0
}

# The forms of operators or of functions, and what their letters stand for, as a part of a manual page.
function tell_forms(of_functions,    at) {
    for (at = 1; at <= form_count; at++) {
        if (is_function[at] + 0 != of_functions)
            continue
        print ".TP\n.B \"" escaped(forms[at]) "\""
        print escaped(values[at] "." (writes[at] == "no" && of_functions ? "" : " Writes: " writes[at] "."))
        if (refusals[at] != "")
            print escaped("Refused with: " refusals[at] ".")
    }
    print ".PP"
    for (at = 1; at <= letter_count; at++)
        if (is_of_functions[at] == of_functions)
            print ".TP\n.B \"" escaped(letters[at]) "\"\n" escaped(meanings[at])
}

function tell_manual(    at) {
    print ".TH PAZTURROK-FORMS 7 \"\" \"Pazturrok\""
    print ".SH NAME\npazturrok-forms \\- the forms of a store, and the numbers of refusals"
    print ".SH FORMS"
    tell_forms(0)
    print ".SH FUNCTIONS\n" escaped(FUNCTIONS)
    tell_forms(1)
    print ".SH REFUSALS"
    for (at = 1; at <= number_count; at++)
        print ".TP\n.B \"" escaped(numbers[at] " " names[at]) "\"\n" escaped(causes[at])
    print ".SH SEE ALSO\n.BR pazturrok (1)"
    return 1
}

# Tells of an operator or of a variable that was not told of yet, behind a line with its name.
function tell_name(name) {
    sub(/^PAZTURROK::/, "", name)
    if (name !~ /^[A-Z*+\/=<>-][A-Z0-9*+\/=<>-]*$/ || name in is_told)
        return
    is_told[name] = 1
    asked = name
    print "@ " asked
    tell_operator()
}

# The same of each name that begins a list in a form, and of a form that is a name.
function tell_names(form,    lists, count, at, words) {
    count = split(form, lists, "(")
    for (at = 1; at <= count; at++) {
        split(lists[at], words, /[ )]/)
        tell_name(words[1])
    }
}

# The same of each variable in an example.
function tell_variables(form) {
    while (match(form, /\*[A-Z-]+\*/)) {
        tell_name(substr(form, RSTART, RLENGTH))
        form = substr(form, RSTART + RLENGTH)
    }
}

# Tells of each number, operator and variable, and the list, behind a line with its name.
function tell_all(    at) {
    print "@ OPERATORS"
    tell_groups()
    for (at = 1; at <= number_count; at++) {
        print "@ " numbers[at]
        tell_refusal(at)
        print "@ " names[at]
        tell_refusal(at)
    }
    for (at = 1; at <= form_count; at++)
        tell_names(forms[at])
    for (at = 1; at <= example_count; at++)
        tell_variables(examples[at])
    return 1
}

END {
    if (asked == "manual")
        exit !tell_manual()
    if (asked == "all")
        exit !tell_all()
    if (asked == "OPERATORS")
        exit !tell_groups()
    for (at = 1; at <= number_count; at++)
        if (asked == numbers[at] "" || asked == names[at]) {
            tell_refusal(at)
            exit 0
        }
    exit !tell_operator()
}
