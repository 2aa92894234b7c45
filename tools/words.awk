# Says which words of a command line are wrong, a sentence to a line, and nothing where they are right. What a command takes stands
# in the first line of its help, and what each word may be at the head of help.txt.
#
#   LC_ALL=C awk -v table=faults.json -f sentences.awk -f words.awk help.txt COMMAND WORD..
#
# It speaks of words alone: whether there is such a file, or a code in the book, the program says. Any POSIX awk runs this.

function read_help(file,   line, part, n, words, i) {
    while ((getline line < file) > 0) {
        if (line ~ /^== /) {
            part = substr(line, 4)
            if (part != "partsbook") commands[++command_count] = part
        } else if (part == "" && line ~ /^[A-Za-z-]+ +[0-9]+ +[0-9]+ +[0-9]+$/) {
            split(line, words, " +")
            least[words[1]] = words[2]
            greatest[words[1]] = words[3]
            step[words[1]] = words[4]
        } else if (part == command && usage == "" && index(line, "partsbook " part) == 1) usage = line
    }
    close(file)
    n = split(usage, words, " ")
    for (i = 3; i <= n && words[i] != "<" && words[i] != ">"; i++) {
        if (substr(words[i], 1, 3) == "[--") {
            options[++option_count] = substr(words[i], 2)
            has_option[substr(words[i], 2)]
            i++
        } else if (words[i] ~ /\.\.$/) many = substr(words[i], 1, length(words[i]) - 2)
        else operands[++operand_count] = words[i]
    }
    reads_book = index(usage, "< BOOK.csv") > 0
}

function say(text) { print text }

# What the word of this name has to be.
function range(name, called) {
    if (step[name] > 1) return called " is a multiple of " step[name] " from " least[name] " to " greatest[name]
    return called " is a number from " least[name] " to " greatest[name]
}

function is_in_range(word, name) {
    if (word !~ /^[0-9]+$/ || length(word) > 10) return 0
    return word + 0 >= least[name] + 0 && word + 0 <= greatest[name] + 0 && word % step[name] == 0
}

function option(at, last,   word, name, value, sign, right) {
    word = name = text[at]
    sign = index(word, "=")
    if (sign) name = substr(word, 1, sign - 1)
    if (!(name in has_option)) {
        right = near_of(name, options, option_count)
        if (right == "" && option_count) {
            right = "; it has " options[1] " N"
            if (option_count > 1) right = right " and " options[2] " N"
        }
        say("`" command "` has no option `" shown(name) "`" right)
        # The value of a mistyped option is no word too many.
        return !sign && at < last && text[at + 1] ~ /^[0-9]+$/ ? at + 1 : at
    }
    if (given[name]++) say("`" name "` is given twice")
    if (sign) value = substr(word, sign + 1)
    else if (at == last || text[at + 1] ~ /^--/) {
        say("`" name "` needs a number behind it: " range(name, "N"))
        return at
    } else value = text[++at]
    if (!is_in_range(value, name)) say("`" name " " shown(value) "`: " range(name, "N"))
    return at
}

# Whether there is a file of this name.
function is_file(word,   parts, n, i, quoted) {
    n = split(word, parts, "'")
    quoted = parts[1]
    for (i = 2; i <= n; i++) quoted = quoted "'\\''" parts[i]
    return word != "" && system("[ -f '" quoted "' ]") == 0
}

function file_given(word) {
    say("`" shown(word) "` is a file: the book is read from standard input, as in: partsbook " command before " < " shown(word))
}

function code_fault(word) {
    if (word ~ /^[A-Z0-9]+$/ && length(word) <= 8 && word != "TRUE" && word != "FALSE") return
    if (word ~ /[.a-z]/ && is_file(word)) file_given(word)
    else if (word ~ /[,; \t]/) say("`" shown(word) "`: codes are separated by blanks, each a word of its own")
    else if (word ~ /[\/+()-]/) say("`" shown(word) "` is a rule, and here stand codes, separated by blanks; partsbook ask takes a rule")
    else if (word ~ /[a-z]/) say("`" shown(word) "`: codes are capitals and digits")
    else if (word == "TRUE" || word == "FALSE") say("`" word "` is a word of the rules, and no code")
    else say("`" shown(word) "` is no code: a code is 1 to 8 capitals and digits")
}

function operand_fault(word, name) {
    if (name == "DAY") {
        if (word !~ /^[0-9]+$/ || length(word) > 5) say("`" shown(word) "` is no day: a day is a number of 1 to 5 digits, as in the first row of the book")
    } else if (name == "CODE") code_fault(word)
    else if (name in least) {
        if (!is_in_range(word, name)) say("`" shown(word) "`: " range(name, name))
    } else if (word == "") say("an empty word is no " name)
}

# The names from this one on, as in: DAY and RULE are missing.
function missing(from,   i, out) {
    for (i = from; i <= operand_count; i++) out = out (i == from ? "" : i == operand_count ? " and " : ", ") operands[i]
    say(out (from < operand_count ? " are" : " is") " missing: " usage)
}

BEGIN {
    last = ARGC - 2
    for (i = 1; i <= last; i++) text[i] = ARGV[i + 1]
    help = ARGV[1]
    for (i = 1; i < ARGC; i++) ARGV[i] = ""
    command = text[1]
    read_help(help)
    if (command == "") {
        say("partsbook --help says what each command does")
        exit
    }
    if (usage == "") {
        say("there is no command `" shown(command) "`" near_of(command, commands, command_count) "; partsbook --help has them all")
        exit
    }
    begun = 2
    for (i = 2; i <= last; i++) {
        word = text[i]
        if (!ended && word == "--") ended = 1
        else if (!ended && word ~ /^--/ || command != "ask" && word ~ /^-./ && !ended) i = option(i, last)
        else if (command != "ask" && word ~ /^-./) say("`" shown(word) "` can't begin with -" (count < operand_count && operands[count + 1] ~ /FILE|STORE/ ? ": a file of this name is ./" shown(word) : ""))
        else if (command != "ask" && word == "-") {
            count++
            say("`-` is no file here" (!reads_book ? "" : operands[count] ~ /FILE/ ? ": the book is read from standard input, and " operands[count] " is another file" : ": without it the book is read from standard input, as in: partsbook " command before " < BOOK.csv"))
        } else {
            count++
            if (count <= operand_count) operand_fault(word, operands[count])
            else if (many != "") operand_fault(word, many)
            else if (reads_book && is_file(word)) file_given(word)
            else say("`" shown(word) "` is one word too many: " usage)
        }
        for (; begun <= i; begun++) before = before " " shown(text[begun])
    }
    if (count < operand_count) missing(count + 1)
}
