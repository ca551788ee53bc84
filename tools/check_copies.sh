# check_copies.sh: checks that what a page shows of a file is that file. A block shows a file whole where its fence
# names the file, as ```rust crates/words/src/lib.rt. With the word `part` after the name, its lines are lines of the file
# in the file's order, and what is shown is whole: of a function each line of its signature and each clause; of a
# definition each line; of a lemma its statement, and its proof wholly or not at all. Of a crate of which a page shows one
# file whole, the page has to show each file, whole or a part.
unset CDPATH
cd "$(dirname "$0")/.." || exit 2
exec awk '
function fault(what) { print page ":" nr ": " what; faults++ }

function text_of(file,    line, text, status) {
    text = ""
    while ((status = (getline line < file)) > 0) text = text line "\n"
    close(file)
    if (status < 0) fault("no file " file)
    return text
}

# a line of the file that a part leaves out, at a place where what is shown goes on
function left_out(k) { fault("leaves out line " k " of " shown ": " of[k]) }

# the lines left out of Rust after a line that is shown: none before the end of a signature that has begun
function check_rust(from, to,    k) {
    for (k = from; k < to && signature; k++) { left_out(k); if (of[k] ~ /^ *{/) signature = 0 }
}

# the lines left out of definitions: none before a blank line, another item or the proof of a lemma
function check_antt(from, to,    k) {
    if (of[from - 1] == "") return
    for (k = from; k < to && of[k] != "" && of[k] !~ /^ *--/; k++) {
        if (lemma != "" && index(of[k], lemma " ") == 1) return
        left_out(k)
    }
}

# what goes on after a line that is shown: a signature up to its brace, or the statement of a lemma of this name
function go_on(line) {
    if (line ~ /^ *(pub(\([a-z]+\))? )?fn .*[^;{}]$/) signature = 1
    else if (line ~ /^ *{/) signature = 0
    if (line ~ /^ *(pub )?[a-z][A-Za-z_-]* : /) { lemma = line; sub(/ : .*/, "", lemma); sub(/pub /, "", lemma) }
    else if (lemma != "" && index(line, lemma " ") == 1) lemma = ""
}

function check_part(file,    lines, n, m, i, at, k, last) {
    n = split(text, lines, "\n")
    m = split(file, of, "\n")
    signature = 0
    lemma = ""
    last = nr
    for (i = 1; i <= n; i++) {
        nr = last - n + i
        for (k = at + 1; i < n && k < m && of[k] != lines[i]; k++);
        if (i == n) k = m
        else if (k == m) { fault("not a line of " shown ", or not here: " lines[i]); break }
        if (at && shown ~ /\.rt$/) check_rust(at + 1, k)
        if (at && shown ~ /\.antt$/) check_antt(at + 1, k)
        go_on(lines[i])
        at = k
    }
    nr = last
}

function check_block(    lines, file) {
    blocks++
    file = text_of(shown)
    seen[page, shown] = 1
    shown_lines += split(text, lines, "\n") - 1
    if (part) { check_part(file); return }
    if (text != file) fault("not the text of " shown)
    if (match(shown, /^crates\/[^\/]*\//)) crate[page, substr(shown, 1, RLENGTH - 1)] = 1
}

function check_crates(    key, parts, list, file) {
    for (key in crate) {
        split(key, parts, SUBSEP)
        list = "find " parts[2] " -name out -prune -o -type f -print"
        while ((list | getline file) > 0) if (!((parts[1], file) in seen)) { print parts[1] ": lacks " file; faults++ }
        close(list)
    }
}

BEGIN {
    list = "ls *.md docs/*.md examples/*.md"
    while ((list | getline page) > 0) {
        nr = 0
        shown = ""
        while ((getline line < page) > 0) {
            nr++
            if (shown != "" && line == "```") { check_block(); shown = "" }
            else if (shown != "") text = text line "\n"
            else if (line ~ /^```[a-z]+ [^ ]+( part)?$/) {
                split(line, words, " ")
                shown = words[2]
                part = words[3] == "part"
                text = ""
            }
        }
        close(page)
        if (shown != "") fault("no end of the block of " shown)
    }
    close(list)
    check_crates()
    print "copies: " shown_lines + 0 " lines in " blocks + 0 " blocks, " faults + 0 " faults"
    exit faults > 0
}'
