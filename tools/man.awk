# The manual page out of the program's help (help.txt): its first line is the name, the lines with four blanks up to the next empty line the calls, the paragraphs
# after them the description, and from the first `$` on examples.
#   awk -v version=V -f man.awk help.txt
function plain(text) {
    gsub(/\\/, "\\e", text)
    gsub(/-/, "\\-", text)
    if (text ~ /^[.']/) text = "\\\\\\&" text
    return text
}

NR == 1 {
    sub(/^lorukinde: /, "")
    printf ".TH LORUKINDE 1 \"\" \"lorukinde %s\" \"Lorukinde\"\n.SH NAME\nlorukinde \\- %s\n.SH SYNOPSIS\n.nf\n", version, plain($0)
    part = "calls"
    next
}
part == "calls" && /^    / { sub(/^    /, ""); print plain($0); begun = 1; next }
part == "calls" && /^$/ { if (begun) { part = "description"; print ".fi\n.SH DESCRIPTION" }; next }
part == "description" && /^    \$/ { part = "examples"; print ".SH EXAMPLES\n.nf" }
part == "description" && /^$/ { next }
part == "description" { print plain($0); print ".br"; next }
part == "examples" { sub(/^    /, ""); print ($0 == "" ? ".sp" : plain($0)) }
END { print ".fi" }
