# The parts of what `wargnifla --help` says, a line for each: its kind, then its text, with tabs between.
#
#   usage TEXT, text PARAGRAPH, heading TEXT (a line right above options), option WORDS DESCRIPTION

function end_part() {
    if (part != "")
        print part
    part = ""
}

function is_option(line) { return line ~ /^  -/ }

# The option's words end at the first two spaces; its description may go on in the lines below.
function option(line,    words) {
    words = substr(line, 3)
    if (!match(words, /  +/))
        return "option\t" words "\t"
    return "option\t" substr(words, 1, RSTART - 1) "\t" substr(words, RSTART + RLENGTH)
}

function add(line) { part = part (part ~ /\t$/ ? "" : " ") line }

{ lines[NR] = $0 }

END {
    for (i = 1; i <= NR; i++) {
        line = lines[i]
        if (line == "") {
            end_part()
        } else if (is_option(line)) {
            end_part()
            part = option(line)
        } else if (line ~ /^ / && part != "") {
            sub(/^ +/, "", line)
            add(line)
        } else if (is_option(lines[i + 1])) {
            end_part()
            print "heading\t" line
        } else if (part ~ /^text/) {
            add(line)
        } else {
            end_part()
            part = sub(/^usage: /, "", line) ? "usage\t" line : "text\t" line
        }
    }
    end_part()
}
