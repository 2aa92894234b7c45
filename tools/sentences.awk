# What the launcher's scripts of awk have in common: the sentences of tools/faults.json, and names that are near a mistyped one.
#
#   LC_ALL=C awk -v table=faults.json -v key='order 1' -f sentences.awk word=400 first=1 last=365
#                                                              the sentence of this key with these words in their places
#
# The table has an entry to a line. Any POSIX awk runs this.

# The text without bytes that a terminal might act on, and cut where it is long.
function shown(text) {
    gsub(/[\001-\037\177]/, " ", text)
    return length(text) > 160 ? substr(text, 1, 157) "..." : text
}

function read_table(   line, at) {
    have_table = 1
    while ((getline line < table) > 0) {
        if (line !~ /^  "/) continue
        at = index(line, "\": \"")
        name = substr(line, 4, at - 4)
        line = substr(line, at + 4)
        sub(/",?$/, "", line)
        gsub(/\\"/, "\"", line)
        gsub(/\\\\/, "\\", line)
        sentences[name] = line
    }
    close(table)
}

# The sentence of this key, with put["word"] in the place of {word} and so on.
function sentence(key,   left, out, at, name) {
    if (!have_table) read_table()
    left = sentences[key]
    while (match(left, /\{[a-z]+\}/)) {
        name = substr(left, RSTART + 1, RLENGTH - 2)
        out = out substr(left, 1, RSTART - 1) put[name]
        left = substr(left, RSTART + RLENGTH)
    }
    return out left
}

# Whether one letter that is missing, too many, another one or exchanged with the next makes one word of the other.
function is_near(one, other,   n, m, i) {
    n = length(one)
    m = length(other)
    if (n - m > 1 || m - n > 1 || one == other) return 0
    for (i = 1; i <= n && i <= m && substr(one, i, 1) == substr(other, i, 1); i++) continue
    if (n == m && substr(one, i + 1) == substr(other, i + 1)) return n > 1
    if (n == m) return substr(one, i, 1) == substr(other, i + 1, 1) && substr(one, i + 1, 1) == substr(other, i, 1) && substr(one, i + 2) == substr(other, i + 2)
    if (n > m) return m > 1 && substr(one, i + 1) == substr(other, i)
    return n > 1 && substr(one, i) == substr(other, i + 1)
}

# The question whether one of these names is meant, at most three of them, or nothing.
function near_of(word, names, n,   i, found, count) {
    for (i = 1; i <= n && count < 3; i++)
        if (is_near(word, names[i])) {
            found = found (count++ ? "` or `" : "") names[i]
        }
    if (!count) return ""
    put["word"] = found
    return "; " sentence("near")
}

BEGIN {
    if (key != "") {
        for (i = 1; i < ARGC; i++) {
            at = index(ARGV[i], "=")
            put[substr(ARGV[i], 1, at - 1)] = shown(substr(ARGV[i], at + 1))
        }
        print sentence(key)
        exit
    }
}
