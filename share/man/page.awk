# Makes the manual page of `program`, one of `programs`, from what it prints for --help, and from share/man/PROGRAM.1: a
# description in one line, and more sections. A heading of the help begins a section. An indented line with two blanks
# after a name begins an entry, and a line that is indented further continues it.
BEGIN { title = "DESCRIPTION"; page = "share/man/" program ".1"; getline what <page }
{ gsub(/\\/, "\\e"); gsub(/-/, "\\-") }
/^[Uu]sage: / { title = "SYNOPSIS"; sub(/^[^ ]* /, ".nf\n") }
/^[A-Za-z][^:]*:$/ { title = toupper(substr($0, 1, length - 1)); order[++count] = title; next }
/^[^ .]/ && count { title = "NOTES"; if (!(title in text)) order[++count] = title }
/^ / && title != "SYNOPSIS" {
    if (match($0, /^ +[^ ]+( [^ ]+)*  +/)) {
        name = substr($0, 1, RLENGTH - 2)
        gsub(/^ +| +$/, "", name)
        $0 = ".TP\n.B " name "\n" substr($0, RLENGTH + 1)
    } else if (!/^     /) $0 = ".PP\n" $0
}
/^$/ { if (title == "SYNOPSIS") { text[title] = text[title] ".fi\n"; title = "DESCRIPTION" } else $0 = ".PP" }
/./ { sub(/^ +/, ""); sub(/\n +/, "\n"); text[title] = text[title] $0 "\n" }
END {
    printf ".TH %s 1 \"\" \"ffosolve @VERSION@\" \"User Commands\"\n.SH NAME\n%s\n", toupper(program), what
    printf ".SH SYNOPSIS\n%s.SH DESCRIPTION\n%s", text["SYNOPSIS"], text["DESCRIPTION"]
    for (at = 1; at <= count; at++) printf ".SH \"%s\"\n%s", order[at], text[order[at]]
    while ((getline <page) > 0) print
    print ".SH SEE ALSO"
    for (at = split(programs, names); at; at--) if (names[at] != program) {
        gsub(/-/, "\\-", names[at])
        printf "%s.BR %s (1)", comma, names[at]
        comma = ",\n"
    }
    print ""
}
