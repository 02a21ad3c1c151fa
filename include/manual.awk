# Writes the pages of the manual into the folder `to`, of what the comments of mime.h, escaped for troff, say: mime.3 on all calls, and one
# page for each call, with the size of its buffer and the answers that it may return.

BEGIN { count = 0 }

# A comment: its text, and its example. The first is about all calls.
/^\/\*/ { in_comment = 1; text = example = "" }
in_comment {
    in_comment = !sub(/ *\*\/$/, "")
    if (sub(/^ \*     /, "")) example = example $0 "\n"
    else {
        if (!sub(/^ \* \\- /, ".IP \\(bu 2\n") && !sub(/^ \*$/, ".PP")) sub(/^.\* */, "")
        text = text $0 "\n"
    }
    if (!in_comment && overview == "") { overview = text; first_example = example }
    next
}
# The size of a buffer, as the macro `MIME_READ_ROOM(text_len)` for `mime_read`.
/^#define MIME_.*ROOM/ {
    while (sub(/ \\e$/, "") && (getline rest) > 0) $0 = $0 rest
    gsub(/^#define |sizeof\(char\) \* /, "")
    at = match($0, / +\(/)
    macro = substr($0, 1, at - 1)
    size = substr($0, at + RLENGTH, length - at - RLENGTH)
    while (match(size, /\([a-z_]+\)/))
        size = substr(size, 1, RSTART - 1) substr(size, RSTART + 1, RLENGTH - 2) substr(size, RSTART + RLENGTH)
    call = tolower(macro)
    sub(/_room.*/, "", call)
    size_of[call] = ".TP\n.B " macro "\n" size "\n"
    if (sizes == "") sizes = ".SS Buffer sizes\n" text
    sizes = sizes size_of[call]
}
# The answers in order, and the other numbers.
/^enum .*\{$/ { is_answer = $2 == "mime_answer"; if (is_answer) about_answers = text; else numbers = ".SS Strings of mime_list\n" text }
/^    \/\*.*\*\/$/ { said = substr($0, 8, length - 10) }
/^    MIME_/ {
    sub(/,$/, "")
    item = ".TP\n.B" substr($0, 4) "\n" said "\n"
    if (is_answer) { name_of[count] = $1; answer[count++] = item } else numbers = numbers item
}
# A struct and its fields.
/^struct .* \{$/ { fields = ".SS struct " $2 "\n" text }
/^    .*; +\/\* / {
    while (!/\*\/$/ && (getline rest) > 0) { sub(/^ *\* */, " ", rest); $0 = $0 rest }
    split($0, parts, / *\/\* | \*\//)
    fields = fields ".TP\n.B" substr(parts[1], 4) "\n" parts[2] "\n"
}
# A call.
/^[a-z].* \*?mime_[a-z_]*\(/ {
    sub(/^static inline /, "")
    while (/,$/ && (getline rest) > 0) { sub(/^ +/, " ", rest); $0 = $0 rest }
    sub(/\)$/, ");")
    match($0, /mime_[a-z_]*\(/)
    call = substr($0, RSTART, RLENGTH - 1)
    synopsis = synopsis ".PP\n.B " $0 "\n"
    see = see ".BR " call " (3),\n"
    returned = ""
    if (match(text, /(\.PP\n)+Answers: [^.]*\./)) {
        returned = "If several apply, mime(3) says which is returned.\n" answers_in(substr(text, RSTART, RLENGTH))
        text = substr(text, 1, RSTART - 1)
    }
    about = text
    # The first sentence, without its sources.
    match(text, /\.( |\n)/)
    first = substr(text, 1, RSTART - 1)
    gsub(/\n/, " ", first)
    gsub(/ \(RFC[^)]*\)/, "", first)
    if (call in size_of) about = about ".PP\n" size_of[call]
    if (/struct mime_found/ && returned != "") about = about fields
    page(call, tolower(substr(first, 1, 1)) substr(first, 2), ".PP\n.B " $0 "\n", about, returned, example, ".BR mime (3),\n")
}
END {
    all = about_answers
    for (at = 0; at < count; at++) all = all answer[at]
    page("mime", "media types such as text/plain", synopsis, overview sizes fields numbers, all, first_example, see ".BR pkg-config (1),\n")
}

# The answers that a comment names, such as MIME_OK to MIME_NO_ROOM, MIME_BAD_PARAMETER.
function answers_in(list, words, many, word, at, from, is_range, result) {
    many = split(list, words, /[ ,.\n]+/)
    for (word = 1; word <= many; word++) {
        if (words[word] == "to") is_range = 1
        for (at = 0; at < count; at++) if (name_of[at] == words[word]) {
            for (from = is_range ? last + 1 : at; from <= at; from++) result = result answer[from]
            last = at
            is_range = 0
        }
    }
    return result
}

function page(name, is, prototypes, about, returned, example, others, file) {
    file = to "/" name ".3"
    # Without hyphens at line ends, and without wider spaces, an example can be copied.
    printf ".TH %s 3 \"\" \"mime %s\"\n.nh\n.ad l\n.SH NAME\n%s \\- %s\n", toupper(name), version, name, is >file
    printf ".SH SYNOPSIS\n.B #include <mime.h>\n%s.SH DESCRIPTION\n%s", prototypes, about >file
    if (returned != "") printf ".SH RETURN VALUE\n%s", returned >file
    if (example != "") printf ".SH EXAMPLES\n.EX\n%s.EE\n", example >file
    printf ".SH SEE ALSO\n%sRFC 9110, RFC 2046\n", others >file
    close(file)
}
