# Says what a refused text breaks, and what to write instead, by the table tools/hints.txt. The script ./cocorun runs it, with any awk of POSIX.
#
# It reads the text on standard input. The environment tells of the refusal: KIND (`design` or `tests`), FILE, RULE, PLACE (line and column as the program
# tells them, or nothing), and TABLE, the path of the table. It prints a line for the refusal, and then a line for each hint, three at most.
#
# A hint is found by a pattern for what stands on the line. Of tests that is the whole logical line, without comments; of its texts only what a rule may be
# about is left: `%` with its letter, odd escapes and letters, and the parts `{..}` of f-strings. All quotes are double ones, and blanks are single. Of a design it is
# the line without comments, behind the line before it, with a mark where the line begins and another at the refused place. For UnknownName it is the name.

BEGIN {
    kind = ENVIRON["KIND"]; rule = ENVIRON["RULE"]
    number = ENVIRON["PLACE"] + 0
    column = ENVIRON["PLACE"]; sub(/^[0-9]*:?/, "", column)
    here = "\001"; start = "\002"; call = "\003"
    read_table(ENVIRON["TABLE"])
    print ENVIRON["FILE"] ":" (number ? ENVIRON["PLACE"] ":" : "") " " rule (sentence == "" ? "" : ": ") sentence
    if (!number && ENVIRON["EVERY"] == "") exit
}

# A hint asks for no more of a line than this.
{ text[NR] = substr($0, 1, 1000) }

END {
    # With EVERY it tells instead for which lines there is a hint that is looked for further on, as tools/hint_cases.py tries on tests that are taken.
    if (ENVIRON["EVERY"] != "") {
        for (; hints; hints--) if (!is_wide[hints]) chosen[++told] = hints
        look_further()
        for (at = 1; at <= told; at++) if (others[at] != "") print advice[chosen[at]] ":" others[at]
        exit
    }
    if (!number || is_swapped()) exit
    name = ""
    if (kind == "design") subject = design_line()
    else subject = tests_line(number)
    for (at = 1; at <= hints && told < 3; at++)
        if (fits(at) && !(advice[at] in said)) {
            said[advice[at]] = 1
            told++
            line = advice[at]
            while (place = index(line, "<name>")) line = substr(line, 1, place - 1) name substr(line, place + 6)
            chosen[told] = at
            shown[told] = "hint: " line
        }
    if (kind == "tests" && rule == "BadLine") look_further()
    for (at = 1; at <= told; at++) print shown[at] (others[at] == "" ? "" : " (also on lines:" others[at] ")")
}

# Notes the lines further on for which a hint was given that fits these too: ten at most, of the next thousand.
function look_further(    at, which) {
    for (at = ended_at + 1; at in text && at < number + 1000; at = ended_at + 1) {
        subject = tests_line(at)
        for (which = 1; which <= told; which++)
            if (subject ~ /[^ ]/ && !is_wide[chosen[which]] && count[which] < 10 && fits(chosen[which])) {
                others[which] = others[which] (count[which]++ ? ", " : " ") at
            }
    }
}

# Whether the pattern of a hint fits, and its exceptions don't. One behind `else` counts where no other hint was told.
function fits(at) {
    if (is_last[at] && told) return 0
    if (but[at] != "" && subject ~ but[at]) return 0
    return subject ~ pattern[at]
}

# The sentence of the rule, and its hints. `<word>` in a pattern stands for what may stand before a word that is no attribute.
function read_table(path,    row, word, rest, is_wanted) {
    while ((getline row < path) > 0) {
        word = rest = row
        sub(/ .*/, "", word)
        sub(/^[^ ]* */, "", rest)
        if (word == "rule") is_wanted = rest == kind " " rule
        else if (word == "fault") is_wanted = 0
        else if (!is_wanted) continue
        else if (word == "says") sentence = rest
        else if (word == "if" || word == "once" || word == "else") {
            pattern[++hints] = expanded(rest)
            is_last[hints] = word == "else"
            is_wide[hints] = word != "if"
        } else if (word == "but") but[hints] = expanded(rest)
        else if (word == "hint") advice[hints] = rest
    }
    close(path)
}

function expanded(rest) {
    gsub(/<word>/, "(^|[^A-Za-z0-9_.])", rest)
    gsub(/<here>/, here, rest)
    gsub(/<start>/, start, rest)
    gsub(/<call>/, call, rest)
    return rest
}

# Whether the two files stand in the wrong order, by what the refused one holds.
function is_swapped(    at, modules, tests) {
    for (at = 1; at in text; at++) {
        if (text[at] ~ /^(import cocotb|from cocotb|@cocotb\.|async def )/) tests++
        if (text[at] ~ /^[ \t]*(module[ \t]+[A-Za-z_]|endmodule)/) modules++
    }
    if (kind == "design" && tests && !modules) print "hint: this is a tests file, and the design stands first: ./cocorun DESIGN TESTS"
    else if (kind == "tests" && modules && !tests) print "hint: this is a design, and the tests stand behind it: ./cocorun DESIGN TESTS"
    else return 0
    return 1
}

# ---- designs

function without_comments(line) {
    gsub(/"[^"]*"/, "\"\"", line)
    gsub(/\/\*[^*]*\*\//, " ", line)
    sub(/\/[\/*].*/, "", line)
    return line
}

function design_line(    before, behind, last, at) {
    before = without_comments(substr(text[number], 1, column - 1))
    behind = without_comments(substr(text[number], column))
    name = behind
    if (!match(name, /^[`$]?[A-Za-z_][A-Za-z0-9_$]*/)) RLENGTH = 1
    name = substr(name, 1, RLENGTH)
    for (at = number - 1; at > 0 && last ~ /^[ \t]*$/; at--) last = without_comments(text[at])
    sub(/[ \t]+$/, "", last)
    return last start before here behind
}

# ---- tests

function tests_line(at,    line) {
    line = logical(at)
    if (rule == "UnknownName") return name = unknown(line)
    return line (calls(line) ? call : "")
}

# Whether a function of the file is called where no call of it may stand.
function calls(line,    at, rest, name) {
    if (!is_noted) {
        is_noted = 1
        for (at = 1; at in text; at++)
            if (text[at] ~ /^(async )?def [A-Za-z_]/) {
                name = text[at]
                sub(/^(async )?def /, "", name)
                sub(/[^A-Za-z0-9_].*/, "", name)
                functions[name] = 1
            }
    }
    if (line ~ /^ ?(async )?def /) return 0
    for (name in functions) {
        rest = line
        gsub("(await|start_soon\\(|start\\(|with_timeout\\() ?" name "\\(", "", rest)
        if (rest ~ "(^|[^A-Za-z0-9_.])" name "\\(") return 1
    }
    return 0
}

# The logical line that begins at a line, as the head of this file says.
function logical(at,    line, out, place, letter, quote, is_format, is_part, deep, last) {
    for (last = at + 100; at in text && at < last; at++) {
        ended_at = at
        line = text[at]
        for (place = 1; place <= length(line); place++) {
            letter = substr(line, place, 1)
            if (quote != "") {
                if (substr(line, place, length(quote)) == quote) {
                    out = out (length(quote) == 3 ? "\"\"\"" : "\"")
                    place += length(quote) - 1
                    quote = ""
                } else if (letter == "\\") {
                    if (!index("\\'\"", substr(line, ++place, 1))) out = out "\\" substr(line, place, 1)
                } else if (is_part || is_format && letter == "{" && substr(line, place + 1, 1) != "{") {
                    out = out letter
                    is_part = letter != "}"
                } else if (is_format && letter == "{") place++
                else if (letter ~ /[^ -~]/) out = out letter
                else if (letter == "%" && !is_format) out = out "%" (substr(line, place + 1, 1) == quote ? "" : substr(line, ++place, 1))
                continue
            }
            if (letter == "#") break
            if (letter == "\"" || letter == "'") {
                quote = substr(line, place, 3) == letter letter letter ? letter letter letter : letter
                is_format = out ~ /(^|[^A-Za-z0-9_])[fF]$/
                is_part = 0
                place += length(quote) - 1
                letter = length(quote) == 3 ? "\"\"\"" : "\""
            }
            if (index("([", letter)) deep++
            if (index(")]", letter)) deep--
            out = out letter
        }
        if (length(quote) == 1) quote = ""
        if (quote == "" && deep <= 0) break
        out = out " "
    }
    sub(/^ +/, " ", out)
    gsub(/  +/, " ", out)
    sub(/ $/, "", out)
    return out
}

# The first name on a line that is nowhere made known, as far as that can be told: by the function around it, and by the lines of the module.
function unknown(line,    known, at, words, top, wanted, before) {
    split("int str bool len range AssertionError AttributeError Exception IndexError OverflowError RuntimeError TypeError UnboundLocalError ValueError " \
        "ZeroDivisionError False None True and as assert async await break continue def elif else except for from if import in is not or pass raise return " \
        "try while with", words, " ")
    for (at in words) known[words[at]] = 1
    for (at = 1; at in text; at++) if (text[at] ~ /^[A-Za-z_@]/) note(logical(at), known)
    if (line ~ /^ /) {
        for (top = number; top > 1 && text[top] !~ /^async def/; top--);
        note_parameters(logical(top), known)
        for (at = top + 1; at in text && text[at] !~ /^[^ #]/; at++) note(logical(at), known)
    }
    # Names behind a point and those of arguments mean nothing here, nor does the letter of an f-string.
    gsub(/"[^"{]*"/, "\"\"", line)
    while (match(line, /[A-Za-z_][A-Za-z0-9_]*/)) {
        wanted = substr(line, RSTART, RLENGTH)
        before = substr(line, 1, RSTART - 1)
        line = substr(line, RSTART + RLENGTH)
        if (wanted in known || before ~ /(\. *|[0-9])$/ || line ~ /^ *=([^=]|$)/ && before ~ /[(,] *$/ || line ~ /^"/) continue
        return wanted
    }
    return ""
}

# What a line makes known: a name that is assigned, that a loop or an `except` gives, a function, a factory, what is imported.
function note(line, known,    words, at) {
    if (match(line, /^ ?[A-Za-z_][A-Za-z0-9_]* *([-+*%&|^]|\/\/|<<|>>)?=[^=]/)) {
        match(line, /[A-Za-z_][A-Za-z0-9_]*/)
        known[substr(line, RSTART, RLENGTH)] = 1
    } else if (line ~ /^ ?for |^async def /) {
        sub(/^ ?for |^async def /, "", line)
        match(line, /^[A-Za-z_][A-Za-z0-9_]*/)
        known[substr(line, 1, RLENGTH)] = 1
    } else if (line ~ /^ ?except .* as /) {
        sub(/.* as /, "", line)
        sub(/ *:.*/, "", line)
        known[line] = 1
    } else if (line ~ /^(import|from) /) {
        sub(/.*import/, "", line)
        at = split(line, words, /[^A-Za-z0-9_]+/)
        for (; at > 0; at--) known[words[at]] = 1
    }
}

function note_parameters(line, known,    words, at, count) {
    sub(/^[^(]*\(/, "", line)
    count = split(line, words, /,/)
    for (at = 1; at <= count; at++) if (match(words[at], /[A-Za-z_][A-Za-z0-9_]*/)) known[substr(words[at], RSTART, RLENGTH)] = 1
}
