# Used by outline and badge: `first` is the first line of the program's answer, the input a game's lines.
# What a form is called, how many operands follow its tag, and how many parts: -1 where the first operand says it.
function form(line, tag, name, operands, parts) { names[line, tag] = name; ops[line, tag] = operands; inner[line, tag] = parts }
BEGIN {
    split(first, number, " ")
    blanks = sprintf("%64s", "")
    answer = number[1]; place = number[2]; cause = number[6]
    form(1, 0, "something", 0, 0); form(1, 1, "integer", 0, 0); form(1, 2, "list of", 0, 1); form(1, 3, "multiset of", 0, 1)
    form(1, 4, "tuple of", 1, -1)
    form(2, 0, "anything", 0, 0); form(2, 1, "variable", 1, 0); form(2, 2, "the integer", 1, 0); form(2, 3, "the value of variable", 2, 0)
    form(2, 4, "nil: nothing is left", 0, 0); form(2, 5, "cons: an element and the rest", 0, 2)
    form(2, 6, "join: a front and a back", 0, 2); form(2, 7, "tuple of", 1, -1); form(2, 8, "and: both of", 0, 2)
    form(2, 9, "or: one of", 0, 2); form(2, 10, "not", 0, 1)
    form(3, 0, "integer", 1, 0); form(3, 1, "collection of", 1, -1); form(3, 2, "tuple of", 1, -1)
    title[1] = "matcher"; title[2] = "pattern"; title[3] = "units"
    split("constant,value of a variable,nil,cons,join,tuple", tags, ",")
    for (k = 6; k > 0; k--) tags[k + 1] = tags[k]
    kinds[0] = "something"; kinds[1] = "integer"; kinds[2] = "a list"; kinds[3] = "a multiset"; kinds[4] = "a tuple"
    at_fault = answer == 1 ? 1 : answer >= 2 && answer <= 4 ? 2 : answer == 5 || answer == 6 ? 3 : 0
    why[1] = "the units have more than 1,024 words"; why[2] = "no tag stands here: 0, 1 or 2 must"
    why[3] = "a count must be from 0 to 64"; why[4] = "a ninth level begins here"
    why[5] = "the words end here, and another must follow"; why[6] = "the units have ended before this word"
    why[7] = "a width must be 2, 3 or 4"
}
# The first word behind the matcher at word m; the matcher that the elements of its collection stand under; -1 is no matcher.
function behind(m,    k, j) {
    if (m < 0 || matcher[m] < 2) return m < 0 ? m : m + 1
    if (matcher[m] < 4) return behind(m + 1)
    j = m + 2
    for (k = 0; k < matcher[m + 1]; k++) j = behind(j)
    return j
}
function elements(m) { return m >= 0 && (matcher[m] == 2 || matcher[m] == 3) ? m + 1 : -1 }
function pieces(m) { return m >= 0 && matcher[m] == 4 ? m + 2 : -1 }
# Its words, with list and multiset alike.
function shape(m,    k, all) {
    for (k = m; k < behind(m); k++) all = all " " (matcher[k] == 3 && !wide[k] ? 2 : matcher[k])
    return all
}
# Which matcher each tag of the pattern, or each value of the units, stands under, and each variable.
function under(i, m,    tag, k, j, e) {
    at_matcher[i] = m
    tag = word[i + 1]
    if (tag == 1) variable_at[word[i + 2]] = m
    if (tag < 5) return i + 1 + ops[2, tag]
    if (tag == 10) return under(i + 1, m)
    if (tag != 7) return under(under(i + 1, tag == 5 ? elements(m) : m), m)
    j = i + 2
    e = pieces(m)
    for (k = 0; k < word[i + 2]; k++) { j = under(j, e); e = behind(e) }
    return j
}
function valued(i, m,    k, j, e) {
    at_matcher[i] = m
    if (word[i + 1] == 0) return i + 2
    j = i + 2
    e = word[i + 1] == 1 ? elements(m) : pieces(m)
    for (k = 0; k < word[i + 2]; k++) { j = valued(j, e); if (word[i + 1] == 2) e = behind(e) }
    return j
}
# What does not fit: a tag under its matcher, a value under its own.
function misfit(tag,    m, k) {
    under(0, 0)
    m = at_matcher[place]
    if (tag == 7 && matcher[m] == 4) return "a tuple of " word[place + 2] " stands under a matcher of tuples of " matcher[m + 1]
    if (tag != 3 || matcher[m] == 0) return "a " tags[tag] " cannot stand under " kinds[matcher[m]] ", word " m " of the matcher"
    for (k = m; k < behind(m); k++) if (matcher[k] == 0) return "something stands in its matcher, and nothing is compared under something"
    if (shape(m) != shape(variable_at[word[place + 2]])) return "variable " word[place + 2] " stands under a matcher of another shape"
    return "a sum is of integers: what is added must be 0 here"
}
function unfit(    m) {
    valued(0, 0)
    m = at_matcher[place]
    return matcher[m] == 4 ? "a tuple of " matcher[m + 1] " must stand here" : (matcher[m] == 1 ? "an integer" : "a collection") " must stand here"
}
# What is wrong at the place, as far as the words show it.
function fault(line,    tag) {
    tag = word[place + 1]
    if (answer == 5) return why[cause]
    if (answer == 6) return unfit()
    if (answer == 4) return misfit(tag)
    if (answer == 3 && tag == 3) return "the variable that it names does not stand to its left"
    if (answer == 3 && word[place + 2] != variables[place]) return "the next variable must have the number " variables[place]
    if (answer == 3 && variables[place] > 15) return "there are more than 16 variables"
    if (answer == 3) return "no variable may stand inside an or or a not"
    if (place == (line == 1 ? 64 : 256) && count > place) return "there are more than " place " words"
    if (place == count) return "the words end here, and another must follow"
    if (depth == 0) return "the " title[line] " has ended before this word"
    if (waiting) return "a width must be 2, 3 or 4"
    if ((line, tag) in names) return "a fifth level begins here"
    return "no tag of a " title[line] " stands here"
}
# Reads the words from the left up to `stop`; keeps for each item its level, its words and, where it has parts, how many were found.
function walk(line, stop,    i, k, tag, parts) {
    items = 0; depth = 1; left[1] = 1; owner[1] = 0; seen = 0; waiting = 0
    for (i = 0; i < stop && depth > 0; i += 1 + ops[line, tag]) {
        tag = word[i + 1]
        if (!((line, tag) in names)) break
        waiting = i + ops[line, tag] >= stop
        items++
        at[items] = i; level[items] = depth; variables[i] = seen
        text[items] = names[line, tag]
        for (k = 1; k <= ops[line, tag] && i + k < count; k++) text[items] = text[items] (k == 2 ? ", plus " : " ") word[i + k + 1]
        if (line == 2 && tag == 1) seen++
        if (owner[depth]) found[owner[depth]]++
        left[depth]--
        if (waiting) break
        parts = inner[line, tag] < 0 ? word[i + 2] : inner[line, tag]
        said[items] = inner[line, tag] < 0 ? parts : ""
        found[items] = 0
        if (parts > 0) { depth++; left[depth] = parts; owner[depth] = items }
        else while (depth > 0 && left[depth] == 0) depth--
    }
    variables[i] = seen
    return i
}
function words(n) { return n (n == 1 ? " word" : " words") }
function point(line) { print "        ^ answer " answer (cause + 0 ? ", cause " cause : "") ": " fault(line) }
function show(line,    wrong, whole, k, more) {
    count = split($0, word, " ")
    if (line == 1) for (k = 0; k < count; k++) matcher[k] = word[k + 1]
    # the words that are widths of tuples, and no tags
    if (line == 1) for (k = 0; k < count; k++) if (matcher[k] == 4) wide[++k] = 1
    wrong = line == at_fault
    whole = answer == 3 || answer == 4 || answer == 6
    walk(line, wrong && !whole ? place : count)
    print title[line] ", " words(count)
    for (k = 1; k <= items; k++) {
        more = said[k] != "" && found[k] + 0 < said[k] + 0 ? ": " (found[k] + 0) " found" : ""
        printf "%s %4d  %s%s%s\n", (wrong && place == at[k] ? ">" : " "), at[k], substr(blanks, 1, 2 * level[k] - 2), text[k], more
        if (wrong && place == at[k]) point(line)
        delete said[k]; delete found[k]
    }
    if (wrong && !whole) {
        printf "> %4d  %s\n", place, (place < count ? word[place + 1] : "(the end)")
        point(line)
        if (place + 1 < count) print "        not read behind it: " words(count - place - 1)
    }
}
NR <= 3 { show(NR) }
