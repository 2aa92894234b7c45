# Reads the records of a book as partsbook reads them, and says what the launcher can't get from the program: how many there are
# of each kind, where a quote is never closed, how large a check is, and each fault with its line and its column.
#
#   LC_ALL=C awk -v table=faults.json -v mode=counts -f sentences.awk -f book.awk BOOK
#                              the counts, where the first record is one of a book; then what looks wrong, as by `quotes`
#   .. -v mode=quotes ..       LINE COLUMN HIDES SENTENCE for each quote that hides records or is never closed (HIDES is 1), and each
#                              text of several lines (0)
#   .. -v mode=faults ..       ROW KIND NUMBER LINE COLUMN SENTENCE for each fault, NUMBER being that of a rule and else 0
#   .. -v mode=size ..         SLICES QUESTIONS, of a check of all slices together
#   .. -v mode=size -v asked=prove ..  the same of `prove`, or of `supplements`
#   .. -v mode=rows ..         how many records there are
#   .. -v mode=row -v want=ROW ..  the line of this record, and then the record
#   .. -v mode=field -v want=ROW -v nth=N ..  LINE COLUMN FIELDS of this record, and its field N behind that
#   .. -v mode=rule ..         as by `faults`, of the rule that the variable PARTSBOOK_RULE of the environment has
#   .. -v mode=near -v name=CODE ..  whether a code of the book is meant that is near this one
#
# A text in which another sign than the comma separates fields is read with -v comma=SIGN.
#
# A field is in quotes only where it begins with one; two quotes in it stand for one; bytes behind the closing quote belong to the
# field. A record ends with CR, LF or CRLF outside quotes, and an empty line is no record. Columns are bytes, counted from 1. Texts
# that are too large or no UTF-8 (row 0) aren't told here. Any POSIX awk runs this.

function fields_needed(kind) {
    return kind == "code" || kind == "module" ? 3 : kind == "variant" ? 8 : kind == "supplement" ? 7 : kind == "book" ? 4 : 6
}

function is_kind(word) { return word in plural }

function begins_record(line) {
    return match(line, /^(book|code|supplement|construct|group|module|position|variant)/) && substr(line, RLENGTH + 1, 1) == comma
}

# One record, of fields[1] to fields[n], which began on this line. Each field begins in a line and a column of its own.
function take(n, line,   i, kind) {
    rows++
    kind = fields[1]
    if (rows == 1) {
        first_kind = kind
        first_line = line
    }
    count[kind]++
    if (mode == "row") {
        if (rows == want) {
            wanted_line = line
            wanted_count = n
            for (i = 1; i <= n; i++) wanted[i] = fields[i]
        }
    } else if (mode == "faults" || mode == "field" && rows == want) keep_record(n, line)
    else if (mode == "rule" && kind == "code") {
        named["code", fields[2]]
        code_names[++code_count] = fields[2]
    } else if (mode == "near" && kind == "code") code_names[++code_count] = fields[2]
    else if (mode == "size") keep(kind, n)
}

function keep_record(n, line,   i) {
    line_of[rows] = line
    fields_of[rows] = n
    for (i = 1; i <= n; i++) {
        text_of[rows, i] = fields[i]
        field_line[rows, i] = begun_line[i]
        field_column[rows, i] = begun_column[i]
        field_quoted[rows, i] = begun_quoted[i]
    }
}

# What the size of a check depends on.
function keep(kind, n) {
    if (kind == "book") {
        first_day = fields[3] + 0
        last_day = fields[4] + 0
    } else if (kind == "supplement" || kind == "construct" || kind == "group" || kind == "position" || kind == "variant") {
        dated++
        from[dated] = fields[fields_needed(kind) - 1]
        until[dated] = fields[fields_needed(kind)]
        what[dated] = kind
        name_of[dated] = kind == "variant" ? fields[3] : fields[2]
        mandatory[dated] = fields[4] == "mandatory"
        if (kind == "supplement" && asked == "supplements") {
            added[dated] = fields[4]
            formula[dated] = fields[5]
        }
    }
}

function end_field() {
    field_count++
    fields[field_count] = field
    field = ""
    state = 0
}

# The next field begins here.
function begin_field(column) {
    begun_line[field_count + 1] = lines
    begun_column[field_count + 1] = column
    begun_quoted[field_count + 1] = 0
}

function end_record() {
    if (state != 0 || field_count > 0) {
        end_field()
        take(field_count, record_line)
    }
    field_count = 0
}

# A line without a quote, outside quotes.
function plain(text,   n, i, column) {
    if (text == "") return
    n = split(text, fields, comma)
    if (mode == "faults" || mode == "field") {
        column = 1
        for (i = 1; i <= n; i++) {
            begun_line[i] = lines
            begun_column[i] = column
            begun_quoted[i] = 0
            column += length(fields[i]) + 1
        }
    }
    take(n, lines)
}

# A line with a quote in it, or inside a field in quotes. States: 0 a field begins, 1 plain, 2 in quotes, 3 behind a quote there.
function scanned(text,   i, c, size) {
    size = length(text)
    for (i = 1; i <= size; i++) {
        c = substr(text, i, 1)
        if (state == 0 && field_count == 0) record_line = lines
        if (state == 0) begin_field(i)
        if (c == "\"" && state == 0) {
            state = 2
            begun_quoted[field_count + 1] = 1
            opened = lines
            opened_at = i
            swallowed = 0
        } else if (c == "\"" && state == 2) state = 3
        else if (c == "\"" && state == 3) {
            state = 2
            field = field "\""
        } else if (c == comma && state != 2) {
            close_quotes()
            end_field()
        } else {
            if (state == 3) close_quotes()
            if (state != 2) state = 1
            field = field c
        }
    }
}

# The end of a field in quotes: where it ran over several lines, they are no records.
function close_quotes() {
    if (state == 3 && lines > opened) {
        hidden[++hidden_count] = opened " " lines " " opened_at " " (swallowed ? "quote lines" : "text lines")
    }
}

# One line, without its end.
function line_read(text) {
    lines++
    if (state == 2) {
        if (begins_record(text)) swallowed++
        field = field "\n"
        scanned(text)
    } else if (index(text, "\"")) scanned(text)
    else {
        plain(text)
        return
    }
    if (state != 2) {
        close_quotes()
        end_record()
    }
}

BEGIN {
    if (comma == "") comma = ","
    plural["book"] = "book"
    plural["code"] = "codes"
    plural["supplement"] = "supplementing rules"
    plural["construct"] = "constructibility rules"
    plural["group"] = "groups"
    plural["module"] = "modules"
    plural["position"] = "positions"
    plural["variant"] = "variants"
    single["code"] = "code"
    single["supplement"] = "supplementing rule"
    single["construct"] = "constructibility rule"
    single["group"] = "group"
    single["module"] = "module"
    single["position"] = "position"
    single["variant"] = "variant"
    split("code supplement construct group module position variant", order, " ")
}

NR == 1 {
    if (substr($0, 1, 3) == "\357\273\277") $0 = substr($0, 4)
    begin = $0
}

{
    if (index($0, "\r")) {
        n_parts = split($0, parts, "\r")
        if (parts[n_parts] == "" && n_parts > 1) n_parts--
        for (p = 1; p <= n_parts; p++) line_read(parts[p])
    } else line_read($0)
}

END {
    open_quote = state == 2
    if (state == 2 || state != 0 || field_count > 0) end_record()
    if (mode == "row") print_row()
    else if (mode == "size") print_size()
    else if (mode == "rows") print rows + 0
    else if (mode == "faults") print_faults()
    else if (mode == "field") print_field()
    else if (mode == "rule") {
        text_of[0, 1] = ENVIRON["PARTSBOOK_RULE"]
        rule_faults(0, 1)
    }
    else if (mode == "quotes") print_quotes("")
    else if (mode == "near") printf "%s", near_of(name, code_names, code_count)
    else print_counts()
}

function print_counts(   text, i, kind) {
    if (first_kind != "book") return
    for (i = 1; i <= 7; i++) {
        kind = order[i]
        if (kind == "group" && !count[kind]) continue
        text = text (text == "" ? "" : ", ") (count[kind] + 0) " " (count[kind] == 1 ? single[kind] : plural[kind])
    }
    print "read " text
    print_quotes("of a line")
}

# Each quote that hides lines, with its line and column, as numbers or in words.
function print_quotes(in_words,   i, part) {
    for (i = 1; i <= hidden_count; i++) {
        split(hidden[i], part, " ")
        put["first"] = part[1]
        put["last"] = part[2]
        print where_at(in_words, part[1], part[3], part[4] == "quote") sentence(part[4] " " part[5])
    }
    if (!open_quote) return
    put["first"] = opened
    put["last"] = lines
    print where_at(in_words, opened, opened_at, 1) sentence(lines > opened ? "quote open" : "quote open one")
}

function where_at(in_words, line, column, hides) {
    return in_words == "" ? line " " column " " hides " " : "line " line ", column " column ": "
}

function joined(   text, i, f) {
    for (i = 1; i <= wanted_count; i++) {
        f = wanted[i]
        gsub(/\n/, " ", f)
        text = text (i > 1 ? "," : "") f
    }
    return shown(text)
}

function print_row() {
    if (want > rows) exit 1
    print wanted_line
    print joined()
}

function print_field() {
    if (want > rows) exit 1
    print line_of[want], field_column[want, nth] + field_quoted[want, nth], fields_of[want]
    printf "%s", text_of[want, nth]
}

# Each first day of a slice, and for each slice the questions.
function print_size(   i, day, days, slices, questions, f, u, count_days, d, per, v, k) {
    day[first_day]
    for (i = 1; i <= dated; i++) {
        f = from[i] == "" ? first_day : from[i] + 0
        u = until[i] == "" ? last_day : until[i] + 0
        if (f > u || f > last_day || u < first_day) {
            what[i] = ""
            continue
        }
        from[i] = f
        until[i] = u
        if (f > first_day) day[f]
        if (u < last_day) day[u + 1]
    }
    for (d in day) {
        slices++
        if (asked == "supplements") {
            questions += supplement_questions(d + 0)
            continue
        }
        questions += 1
        if (asked != "prove") questions += 2 * count["code"]
        for (k in per) delete per[k]
        for (i = 1; i <= dated; i++)
            if (what[i] == "variant" && from[i] <= d + 0 && d + 0 <= until[i]) per[name_of[i]]++
        for (i = 1; i <= dated; i++)
            if (what[i] == "position" && from[i] <= d + 0 && d + 0 <= until[i]) {
                v = per[name_of[i]] + 0
                questions += v * (v - 1) / 2 + mandatory[i]
                if (asked != "prove") questions += v
            }
    }
    printf "%d %d\n", slices, questions
}

# Of a day: one for each active supplementing rule, and one for each two of other codes where the code of one stands in the formula
# of the other.
function supplement_questions(day,   i, j, w, n, m, n_th, words, asked_of, adding, seen, both) {
    for (i = 1; i <= dated; i++)
        if (what[i] == "supplement" && from[i] <= day && day <= until[i]) {
            asked_of++
            adding[added[i]] = adding[added[i]] " " i
            n = split(formula[i], words, /[^A-Z0-9]+/)
            for (w = 1; w <= n; w++) if (words[w] != "" && words[w] != added[i]) seen[i, words[w]]
        }
    for (w in seen) {
        split(w, words, SUBSEP)
        m = split(adding[words[2]], n_th, " ")
        for (j = 1; j <= m; j++) {
            asked_of++
            if ((n_th[j], added[words[1]]) in seen) both++
        }
    }
    return asked_of - both / 2
}

# A fault of a field: row, kind, number of a rule's fault, field, bytes behind its begin, and the key of the sentence.
function fault(row, kind, number, i, behind, key) {
    print row, kind, number, field_line[row, i] + 0, field_column[row, i] + (behind >= 0 ? field_quoted[row, i] + behind : 0), sentence(key)
    put["word"] = ""
}

function word_fault(row, kind, i, key) {
    put["word"] = shown(text_of[row, i])
    fault(row, kind, 0, i, -1, key)
}

# What the fields of a record are, from the second one on.
function read_types() {
    types["book"] = "NAME FIRST LAST FORM"
    types["code"] = "CODE TEXT"
    types["supplement"] = "ID RANK CODE RULE FROM UNTIL"
    types["construct"] = "ID ANYCODE RULE FROM UNTIL"
    types["group"] = "ID GROUPKIND CODES FROM UNTIL"
    types["module"] = "ID TEXT"
    types["position"] = "ID MODULE KIND FROM UNTIL"
    types["variant"] = "ID POSITION PART QUANTITY RULE FROM UNTIL"
    most["code"] = 2000
    most["supplement"] = 5000
    most["construct"] = 10000
    most["group"] = 1000
    most["module"] = 1000
    most["position"] = 5000
    most["variant"] = 20000
}

# 20000 as 20,000.
function with_commas(n) { return n < 1000 ? n : int(n / 1000) "," substr(1000 + n % 1000, 2) }

# Each fault of the text, row by row: first those of a first pass, which looks at each record alone and at the names before it.
function print_faults(   row, form) {
    read_types()
    if (!first_record()) return
    for (row = 1; row <= rows; row++) if (text_of[row, 1] == "book") { form = text_of[row, 5]; break }
    for (row = 1; row <= rows; row++) sound[row] = record_faults(row, form)
    for (row = 1; row <= rows; row++) if (sound[row]) name_faults(row)
}

# Whether the text is one of records, and if the first one is a `book`; if it isn't, that is a fault.
function first_record(   low, key) {
    low = tolower(begin)
    if (first_kind == "book") return 1
    if (rows == 0) key = "book 3 empty"
    else if (index(begin, "\377\376") == 1 || index(begin, "\376\377") == 1) key = "book 3 utf16"
    else if (low ~ /^"?book"?;/) key = "book 3 semicolons"
    else if (low ~ /^"?book"?\t/) key = "book 3 tabs"
    else if (index(begin, "partsbook certificate")) key = "book 3 certificate"
    if (key != "") {
        print 1, 3, 0, (rows ? first_line : 1), 1, sentence(key)
        return 0
    }
    put["word"] = shown(tolower(trimmed(first_kind)) == "book" ? first_kind : begin)
    fault(1, 3, 0, 1, -1, tolower(trimmed(first_kind)) == "book" ? "book 3 letters" : count["book"] ? "book 3 later" : "book 3")
    skipped[1] = 1
    return 1
}

function trimmed(text) {
    gsub(/^[ \t]+|[ \t]+$/, "", text)
    return text
}

# The faults of one record by itself. Whether its names can be looked for.
function record_faults(row, form,   kind, low, n, needed, i, found, t, type, at, among) {
    kind = text_of[row, 1]
    low = tolower(trimmed(kind))
    # A name that is only written wrong isn't lacking as well.
    if (low in plural) meant[low, toupper(trimmed(text_of[row, 2]))]
    if (skipped[row]) return 0
    if (kind == "book" && row > 1 && !skipped[1]) {
        fault(row, 4, 0, 1, -1, "book 4")
        return 0
    }
    if (!(kind in plural) || (kind == "group" && form + 0 != 2)) {
        put["right"] = low
        word_fault(row, 5, 1, kind in plural ? "book 5 group" : low in plural ? "book 5 letters" : "book 5")
        return 0
    }
    if (kind == "book") skipped[1] = 0
    n = fields_of[row]
    needed = fields_needed(kind)
    for (i = n; i > needed + (kind == "book") && text_of[row, i] == ""; i--) continue
    if (n < needed || i > needed + (kind == "book")) {
        put["kind"] = kind
        put["needed"] = needed
        put["found"] = n < needed ? n : i
        fault(row, 6, 0, n < needed ? 1 : needed + 1, -1, kind == "book" ? "book 6 book" : n < needed ? "book 6" : "book 6 more")
        return 0
    }
    t = split(types[kind], type, " ")
    found = 0
    for (i = 1; i <= t; i++) found += field_fault(row, i + 1, type[i])
    if (found) return 0
    i = kind == "book" ? 3 : needed - 1
    if (kind != "code" && kind != "module" && text_of[row, i] != "" && text_of[row, i + 1] != "" && text_of[row, i] + 0 > text_of[row, i + 1] + 0) {
        put["last"] = text_of[row, i + 1]
        word_fault(row, 9, i, "book 9")
        found = 1
    }
    if (kind == "book") return 1
    among = kind == "supplement" || kind == "construct" || kind == "group" ? "rule" : kind
    if ((among, text_of[row, 2]) in named) {
        put["line"] = field_line[named[among, text_of[row, 2]], 2]
        word_fault(row, 10, 2, among == "rule" ? "book 10 rule" : "book 10")
        found = 1
    } else named[among, text_of[row, 2]] = row
    if (kind == "code" && !found) code_names[++code_count] = text_of[row, 2]
    if (++of_kind[kind] == most[kind] + 1) {
        put["word"] = plural[kind]
        put["most"] = with_commas(most[kind])
        fault(row, 13, 0, 1, -1, "book 13")
    }
    return 1
}

# Whether a field isn't of its type: 1, having told it, or 0.
function field_fault(row, i, type,   text, key, kind) {
    text = text_of[row, i]
    kind = 7
    if (type == "TEXT" || type == "RULE" || type == "ANYCODE" && text == "*" || type == "MODULE" && text == "") return 0
    if (type == "NAME" || type == "ID" || type == "CODE" || type == "ANYCODE" || type == "MODULE" || type == "POSITION") {
        if (is_name(text) && (type !~ /CODE$/ || text != "TRUE" && text != "FALSE")) return 0
        key = is_name(text) ? "book 7 code" : text == "" ? "book 7 empty" : is_name(toupper(text)) ? "book 7 letters" : "book 7"
    } else if (type == "PART") {
        if (text ~ /^[A-Z0-9]+$/ && length(text) <= 16) return 0
        key = "book 7 part"
    } else if (type == "KIND") {
        if (text == "mandatory" || text == "optional") return 0
        key = "book 7 kind"
    } else if (type == "GROUPKIND") {
        if (text == "one" || text == "most") return 0
        key = "book 7 groupkind"
    } else if (type == "CODES") {
        if (are_codes(text)) return 0
        key = "book 7 codes"
    } else {
        kind = 8
        if (type == "FORM") {
            if (text == "" || text == "1" || text == "2") return 0
            key = "book 8 form"
        } else if (type == "RANK") {
            if (is_number(text, 0, 9999)) return 0
            key = "book 8 rank"
        } else if (type == "QUANTITY") {
            if (is_number(text, 1, 999)) return 0
            key = "book 8 quantity"
        } else {
            if (is_number(text, 1, 99999) || text == "" && (type == "FROM" || type == "UNTIL")) return 0
            key = "book 8 day"
        }
    }
    word_fault(row, kind, i, key)
    return 1
}

function is_name(text) { return text ~ /^[A-Z0-9]+$/ && length(text) <= 8 }

function is_number(text, least, greatest) {
    return text ~ /^[0-9]+$/ && length(text) <= 5 && text + 0 >= least && text + 0 <= greatest
}

function are_codes(text,   names, n, i, seen) {
    n = split(text, names, "/")
    if (n < 2 || n > 64) return 0
    for (i = 1; i <= n; i++) {
        if (!is_name(names[i]) || names[i] == "TRUE" || names[i] == "FALSE" || names[i] in seen) return 0
        seen[names[i]]
    }
    return 1
}

# Whether a record has this name, or one that is only written wrong.
function is_known(among, name) { return (among, name) in named || (among, name) in meant }

# A name that no record has, and what may be meant.
function unknown(row, i, name, among, behind,   key, asked_near) {
    asked_near = among == "code" && near_count++ < 50 ? near_of(name, code_names, code_count) : ""
    put["word"] = shown(name)
    key = sentence("book 11 " among)
    print row, 11, 0, field_line[row, i], field_column[row, i] + (behind ? field_quoted[row, i] + behind : 0), key asked_near
}

# The faults of a second pass, which needs the names of all records.
function name_faults(row,   kind, names, n, i, behind) {
    kind = text_of[row, 1]
    if (kind == "supplement") {
        if (!is_known("code", text_of[row, 4])) unknown(row, 4, text_of[row, 4], "code", 0)
        rule_faults(row, 5)
    } else if (kind == "construct") {
        if (text_of[row, 3] != "*" && !is_known("code", text_of[row, 3])) unknown(row, 3, text_of[row, 3], "code", 0)
        rule_faults(row, 4)
    } else if (kind == "group") {
        n = split(text_of[row, 4], names, "/")
        behind = 0
        for (i = 1; i <= n; i++) {
            if (!is_known("code", names[i])) unknown(row, 4, names[i], "code", behind)
            behind += length(names[i]) + 1
        }
    } else if (kind == "position") {
        if (text_of[row, 3] != "" && !is_known("module", text_of[row, 3])) unknown(row, 3, text_of[row, 3], "module", 0)
    } else if (kind == "variant") {
        if (!is_known("position", text_of[row, 3])) unknown(row, 3, text_of[row, 3], "position", 0)
        rule_faults(row, 6)
        if (++variants[text_of[row, 3]] == 201) fault(row, 13, 0, 1, -1, "book 13 choices")
    }
}

# Where in a rule something is wrong, by the number of the fault and its place, counted from 0.
function rule_fault(row, i, number, place, key, word,   rule, asked_near, said) {
    rule = shown(text_of[row, i])
    if (number == 3 && near_count++ < 50) asked_near = near_of(word, code_names, code_count)
    put["word"] = shown(word)
    said = sentence(key) asked_near
    put["rule"] = rule
    put["byte"] = place + 1
    put["what"] = said
    fault(row, 12, number, i, place, number == 1 ? "book 12" : place >= length(text_of[row, i]) ? "book 12 end" : "book 12 at")
}

# The first fault of a rule, and each word before it that is no code.
function rule_faults(row, i,   rule, size, at, c, word, operand, open, depth, signs, ended, told) {
    rule = text_of[row, i]
    size = length(rule)
    if (rule ~ /^[ \t\r\n]*$/) {
        rule_fault(row, i, 1, 0, "rule 1", "")
        return
    }
    operand = 1
    # What is open, from the left: a bracket is a (, and a minus sign whose factor hasn't ended a -.
    open = ""
    for (at = 1; at <= size; at += length(word)) {
        c = word = substr(rule, at, 1)
        if (c ~ /[ \t\r\n]/) continue
        if (match(substr(rule, at), /^[A-Z0-9]+/)) {
            word = substr(rule, at, RLENGTH)
            c = "A"
        } else if (index("/+-();", c) == 0) {
            if (match(substr(rule, at), /^[A-Za-z0-9]+/)) word = substr(rule, at, RLENGTH)
            rule_fault(row, i, 2, at - 1, "rule 2", word)
            return
        }
        if (ended || (operand ? index("A-(", c) == 0 : index("A-(", c) > 0) || c == ")" && index(open, "(") == 0 || c == ";" && index(open, "(") > 0) {
            rule_fault(row, i, 4, at - 1, "rule 4", word)
            return
        }
        if (c == "(" || c == "-") {
            if (length(open) == 64) {
                rule_fault(row, i, 5, at - 1, "rule 5", word)
                return
            }
            open = open c
        } else if (c == ")") {
            sub(/-*$/, "", open)
            open = substr(open, 1, length(open) - 1)
        }
        if (c == "A" && word != "TRUE" && word != "FALSE" && !is_known("code", word) && !((row, word) in told)) {
            told[row, word]
            rule_fault(row, i, 3, at - 1, "rule 3", word)
        }
        if (index("A-+/", c) && ++signs == 513) {
            rule_fault(row, i, 6, at - 1, "rule 6", word)
            return
        }
        if (c == "A" || c == ")") sub(/-*$/, "", open)
        operand = c != "A" && c != ")"
        ended = c == ";"
    }
    if (!ended && (operand || index(open, "("))) rule_fault(row, i, 4, size, operand ? "rule 4 end" : "rule 4 bracket", "")
}
