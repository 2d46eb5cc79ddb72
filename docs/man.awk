# Makes a manual page in roff of a page of docs/ in Markdown: awk -f docs/man.awk docs/hs_check.md | man -l -
#
# It knows what those pages are written in: the title `# name(1)`, `##` and `###` headings, paragraphs, lists by `- `, tables,
# texts that are indented by four blanks, **strong**, `code` and [links](to). It ends with status 1 where the title is
# another. `-v documents=FOLDER` says where the documents are that the page names, as a whole path, or as one below where a package was
# unpacked; `-v version=VERSION` of which version the page is, and `-v date=DATE` of when.

BEGIN {
    commands = "hs_tool-audit hs_tool-committee hs_tool-export hs_tool-folder hs_tool-keygen hs_tool-migrate hs_tool-renewal hs_tool-replica hs_tool-weighted "
    about["hs_tool"] = "make keys and committees, run a replica, audit logs"
    about["hs_tool-keygen"] = "make the files of a replica's key"
    about["hs_tool-committee"] = "write the file of a committee whose replicas count once"
    about["hs_tool-weighted"] = "write the file of a committee whose replicas have weights"
    about["hs_tool-replica"] = "run a replica over lines of input"
    about["hs_tool-folder"] = "what a replica's folder needs, and how its log is handed out"
    about["hs_tool-audit"] = "say what logs prove, and which replicas they accuse"
    about["hs_tool-migrate"] = "carry a log over from before votes named their keys"
    about["hs_tool-export"] = "write the export of a log that a file has"
    about["hs_tool-renewal"] = "make the next committee's file and its renewal of endorsements"
    about["hs_check"] = "judge whether a verdict proves that a replica broke a voting rule"
    about["hs_show"] = "show what stands in a file of a committee, a verdict or a log"
    about["hs_draw"] = "draw what logs show and whom they accuse"
    about["hs_signer"] = "answer a ledger that asks a replica for votes"
    about["hs_watch"] = "watch the logs of replicas, and store a verdict on each culprit"
    about["hs_follow"] = "say to which committee a committee handed its ledger over"
}

NR == 1 { begin_page($0); next }
/^    / { add_to_text(substr($0, 5)); next }
/^$/ { if (kind == "text") held = held "\n"; else end_block(); next }
kind == "text" { end_block() }
/^### / { end_block(); print ".SS " spelled(substr($0, 5)); is_below_heading = 1; next }
/^## / { end_block(); begin_section(substr($0, 4)); next }
/^\|/ { if (kind != "table") { end_block(); kind = "table"; rows = 0 } add_row($0); next }
/^- / { end_block(); kind = "item"; block = substr($0, 3); next }
{
    sub(/^ +/, "")
    block = block (block == "" ? "" : " ") $0
    if (kind == "") kind = "paragraph"
}
END {
    end_block()
    if (page != "") end_page()
}

function begin_page(title) {
    if (title !~ /^# [a-z_-]+\(1\)$/ || !(substr(title, 3, length(title) - 5) in about)) {
        print "man.awk: no title of a page: " title >"/dev/stderr"
        exit 1
    }
    page = substr(title, 3, length(title) - 5)
    print ".\\\" Made of " page ".md by man.awk."
    print ".TH " toupper(page) " 1 \"" date "\" \"Wezhgula" (version == "" ? "" : " " version) "\" \"User Commands\""
    print ".nh\n.ad l"
    begin_section("Name")
    print page " \\- " about[page]
}

# Below `## See also` the other pages come first, and then what the page itself names.
function begin_section(name) {
    print ".SH " toupper(spelled(name))
    is_below_heading = 1
    if (name == "See also") put_other_pages()
}

function put_other_pages(    names, i, others) {
    split("hs_check hs_draw hs_follow hs_show hs_signer hs_tool " (page ~ /^hs_tool/ ? commands : "") "hs_watch", names, " ")
    for (i = 1; i in names; i++)
        if (names[i] != page) others = others (others == "" ? "" : " ,\n") ".BR " names[i] " (1)"
    print others
    is_below_heading = 0
    has_other_pages = 1
}

function end_page() {
    if (!has_other_pages) begin_section("See also")
    if (documents != "")
        put_paragraph("The documents that this page names, as FORMATS.md, and its examples are in `" documents "`" \
            (documents ~ /^\// ? "" : " of the folder in which this package was unpacked") ".")
}

# What has been gathered of a paragraph, an item, a table or a text is put out.
function end_block() {
    if (kind == "paragraph") put_paragraph(block)
    if (kind == "item") { print ".IP \\(bu 2"; put_words(spelled(block)) }
    if (kind == "text") put_text()
    if (kind != "") is_below_heading = 0
    kind = block = ""
}

function put_paragraph(text) {
    if (!is_below_heading) print ".PP"
    put_words(spelled(text))
}

function add_to_text(line) {
    if (kind == "item") end_block()
    if (kind != "text") { end_block(); kind = "text"; held = block = "" }
    block = block (block == "" ? "" : held "\n") line
    held = ""
}

# A text is put out as it stands, with a blank of its own for each line that is empty.
function put_text(    lines, n, i) {
    n = split(block, lines, "\n")
    print (is_below_heading ? "" : ".PP\n") ".RS 4\n.nf"
    for (i = 1; i <= n; i++) print (lines[i] == "" ? ".sp" : guarded(literal(lines[i])))
    print ".fi\n.RE"
}

# A row is put out as a paragraph with a tag, its first cell. A table of two columns says the second cell behind it, and
# one of more each further cell behind its column's name. A row with no first cell goes on with the one before.
function add_row(row,    cells, columns, i) {
    sub(/^\|/, "", row)
    sub(/\|$/, "", row)
    columns = split(row, cells, "|")
    for (i = 1; i <= columns; i++) { sub(/^ +/, "", cells[i]); sub(/ +$/, "", cells[i]) }
    if (++rows == 1) { for (i in cells) heads[i] = cells[i]; return }
    if (row ~ /^[-|]+$/) return
    if (cells[1] == "") print ".IP \"\" 7"
    else { print ".TP 7"; put_words(spelled(cells[1])) }
    if (columns == 2) { put_words(spelled(cells[2])); return }
    for (i = 2; i <= columns; i++) {
        if (cells[i] == "") continue
        if (i > 2) print ".br"
        put_words("\\fI" spelled(heads[i]) "\\fR: " spelled(cells[i]))
    }
}

# Roff's letters for a text that is to be shown as it stands.
function literal(text) {
    gsub(/\\/, "\\e", text)
    gsub(/-/, "\\-", text)
    gsub(/'/, "\\(aq", text)
    gsub(/`/, "\\(ga", text)
    gsub(/\^/, "\\(ha", text)
    gsub(/~/, "\\(ti", text)
    gsub(/⌊/, "\\(lf", text)
    gsub(/⌋/, "\\(rf", text)
    return text
}

# Roff's spelling of a text with strong words, code and links. Words within marks of code are shown as they stand.
function spelled(text,    parts, n, i, all) {
    n = split(text, parts, "`")
    for (i = 1; i <= n; i++) {
        if (i % 2 == 0) { all = all "\\fB" literal(parts[i]) (is_strong ? "\\fB" : "\\fR"); continue }
        all = all marked(literal(parts[i]))
    }
    is_strong = 0
    return all
}

# Prose between two pieces of code, in which `**` begins and ends strong words.
function marked(text,    at, all) {
    while (match(text, /\[[^]]+\]\([^)]+\)/)) {
        at = substr(text, RSTART + 1, RLENGTH - 2)
        sub(/\]\(.*/, "", at)
        text = substr(text, 1, RSTART - 1) at substr(text, RSTART + RLENGTH)
    }
    while ((at = index(text, "**")) > 0) {
        is_strong = !is_strong
        all = all substr(text, 1, at - 1) (is_strong ? "\\fB" : "\\fR")
        text = substr(text, at + 2)
    }
    return all text
}

# A line that does not begin as one of roff's requests.
function guarded(line) { return (line ~ /^[.]/ ? "\\&" : "") line }

# Puts words out in short lines, each sentence in a line of its own.
function put_words(text,    words, n, i, line) {
    n = split(text, words, / +/)
    for (i = 1; i <= n; i++) {
        if (line != "" && length(line) + 1 + length(words[i]) > 78) { print guarded(line); line = "" }
        line = line (line == "" ? "" : " ") words[i]
        if (words[i] ~ /[^.][.?!](\)|"|\\f[RB])*$/) { print guarded(line); line = "" }
    }
    if (line != "") print guarded(line)
}
