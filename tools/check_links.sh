# check_links.sh: checks the pages, those at the top and in docs and examples.
# Checked are: the file and the heading of each relative link; each path in backticks; each name of code in backticks,
# which has to occur as a word in a crate, in python or in the C header; and the lines of refusals in MESSAGES.md: each is
# printed by some call of crates/stored_calls or by a test with large files or little memory (crates/call_tests/src/hostile),
# each refusal that is stored is one of them, and they have each text of the code; and the number of calls in TESTING.md.
# A path may be shortened from the left (`specs/Laws.antt`), and may have `*`. Folders that builds make aren't looked for.
unset CDPATH
cd "$(dirname "$0")/.." || exit 2
exec awk '
function fault(what) { print page ":" nr ": " what; faults++ }

# the anchor of a heading
function slug(text) {
    text = tolower(text)
    gsub(/[^a-z0-9 _-]/, "", text)
    gsub(/ /, "-", text)
    return text
}

# whether a line is outside code: fenced blocks, and blocks that are indented
function is_prose(line) {
    if (line ~ /^ *```/) { fenced = !fenced; return 0 }
    return !fenced && line !~ /^    [^*-]/
}

# the folder of a page, with its slash
function folder(name) { return match(name, /.*\//) ? substr(name, 1, RLENGTH) : "" }

# a path without its "folder/.." parts
function plain(path) {
    while (match(path, /[^\/]+\/\.\.\//)) path = substr(path, 1, RSTART - 1) substr(path, RSTART + RLENGTH)
    return path
}

function check_link(target,    at, anchor) {
    if (target ~ /^[a-z]+:/) return
    at = index(target, "#")
    anchor = at ? substr(target, at + 1) : ""
    if (at) target = substr(target, 1, at - 1)
    target = target == "" ? page : plain(folder(page) target)
    if (!(target in tree)) fault("no file " target)
    else if (anchor != "" && !((target, anchor) in anchors)) fault("no heading #" anchor " in " target)
}

# a path, whole or shortened from the left
function check_path(path,    name, pattern) {
    if (path ~ /(^|\/)out(\/|$)/ || path ~ /NAME|FILE/ || path in others) return
    sub(/\/$/, "", path)
    if (path in tree || path in ends) return
    if (path ~ /\*/) {
        pattern = path
        gsub(/\./, "[.]", pattern)
        gsub(/\*/, "[^/]*", pattern)
        for (name in tree) if (name ~ ("(^|/)" pattern "$")) return
    }
    fault("no path " path)
}

function check_names(name,    parts, n, i) {
    if (name ~ /NAME|FILE/) return
    n = split(name, parts, /::|\./)
    for (i = 1; i <= n; i++) if (!(parts[i] in words)) fault("no name " name " in the code")
}

# whether a text looks like a path: by its ending, or by its first folder
function is_path(text,    parts) {
    if (text !~ /^[A-Za-z_.*][A-Za-z0-9_.*\/-]*$/) return 0
    if (text ~ /\.(antt|rt|md|sh|bash|py|awk|c|csv|toml|txt|trace|svg|edit)$/) return 1
    split(text, parts, "/")
    return text ~ /\// && (parts[1] in tree || parts[1] in ends)
}

function check_code(text) {
    if (is_path(text)) check_path(text)
    else if (text ~ /^[A-Za-z_][A-Za-z0-9_]*((::|\.)[A-Za-z_][A-Za-z0-9_]*)*$/ && text ~ /[A-Z_]|::/ && !(text in others)) check_names(text)
    else if (text ~ /^[a-z][a-z0-9_]*(-[a-z0-9_]+)+$/ && !(text in others)) { if (!(text in words)) fault("no name " text " in the code") }
}

# the texts in backticks of a line, each handed on
function each_code(line,    parts, n, i) {
    n = split(line, parts, "`")
    for (i = 2; i < n; i += 2) check_code(parts[i])
}

function each_link(line,    target) {
    gsub(/`[^`]*`/, "", line)
    while (match(line, /\]\([^()]*\)/)) {
        target = substr(line, RSTART + 2, RLENGTH - 3)
        line = substr(line, RSTART + RLENGTH)
        check_link(target)
    }
}

# a line of MESSAGES.md as a pattern: numbers, names, a line, and letters that stand for themselves
function pattern_of(line) {
    gsub(/[.*?+()\[\]]/, "[&]", line)
    gsub(/<(word|key)>/, "[A-Za-z0-9_?-]*", line)
    gsub(/<option>/, "--[a-z]+", line)
    gsub(/<(task|field)>/, "[A-Za-z0-9_-]+", line)
    gsub(/<line>/, ".*", line)
    gsub(/<[a-z]+>/, "[0-9]+", line)
    return "^" line "$"
}

# the lines in the first column of a row of MESSAGES.md, and all its texts
function take_row(line,    parts, cells, n, i) {
    n = split(line, parts, "`")
    for (i = 2; i < n; i += 2) texts = texts parts[i] "\n"
    if (split(line, cells, "|") < 4) return
    n = split(cells[2], parts, "`")
    for (i = 2; i < n; i += 2) { patterns[pattern_of(parts[i])] = parts[i]; line_at[pattern_of(parts[i])] = nr }
}

# a stored line has to be one of them; a line that a failed put has cut has "no line feed" after it
function check_stored(line,    pattern, some) {
    if (line !~ /^!/ || line ~ /^!probe /) return
    for (pattern in patterns) if (substr(line, 2) ~ pattern) { some = 1; printed[pattern] = 1 }
    if (!some) fault("docs/MESSAGES.md lacks " substr(line, 2))
}

# a line that a test of large files or little memory wants; of a file that is too long it names the kind of file
function check_tested(text,    pattern) {
    if (text ~ /^word: /) sub(/"$/, ": too long\"", text)
    gsub(/^(word: )?"|(\\n)?"$/, "", text)
    for (pattern in patterns) if (text ~ pattern) printed[pattern] = 1
}

# a text of the code without its line feed has to be part of a text of MESSAGES.md
function check_text(text) {
    sub(/^b"/, "", text)
    sub(/(\\n)?"$/, "", text)
    if (index(texts, text) == 0) fault("docs/MESSAGES.md lacks the text " text)
}

function check_messages(    line, before, pattern, list) {
    page = "docs/MESSAGES.md"
    for (nr = 1; (getline line < page) > 0; nr++) take_row(line)
    close(page)
    page = "crates/stored_calls/stdout"
    for (nr = 1; (getline line < page) > 0; nr++) {
        if (line != "no line feed") check_stored(before)
        before = line
    }
    check_stored(before)
    close(page)
    list = "grep -rhoE \"(word: )?\\\"[^\\\"]*\\\"\" crates/call_tests/src/hostile"
    while ((list | getline line) > 0) check_tested(line)
    close(list)
    page = "docs/MESSAGES.md"
    for (pattern in patterns) { nr = line_at[pattern]; if (!(pattern in printed)) fault("no stored call and no test has " patterns[pattern]) }
    list = "grep -o \"b\\\"[^\\\"]*\\\"\" crates/*/src/fault_line.rt crates/statuses/src/refusal.rt crates/statuses/src/difference.rt"
    while ((list | getline line) > 0) {
        page = substr(line, 1, index(line, ":") - 1)
        nr = 0
        check_text(substr(line, index(line, ":") + 1))
        read++
    }
    close(list)
    if (!read) fault("no texts of refusals in the code")
}

# the number of stored calls in TESTING.md, rounded down to tens
function check_calls(    line, count, wanted, some) {
    while ((getline line < "crates/stored_calls/data/calls.txt") > 0) if (line ~ /^call /) count++
    page = "docs/TESTING.md"
    wanted = "some " int(count / 10) "0 calls"
    for (nr = 1; (getline line < page) > 0; nr++) if (index(line, wanted)) some = 1
    close(page)
    if (!some) fault("doesn\047t say " wanted)
}

BEGIN {
    list = "find * .ci -name out -prune -o -print"
    while ((list | getline path) > 0) {
        tree[path] = 1
        while (match(path, /\//)) { path = substr(path, RSTART + 1); ends[path] = 1 }
    }
    close(list)
    code = "find crates examples python library crates.txt -name out -prune -o -type f \\( -name \"*.py\" -o -name \"*.h\" -o -name \"*.rt\" -o -name \"*.antt\" -o -name \"*.edit\" -o -name \"*.txt\" -o -name \"*.toml\" \\) -exec cat {} + | LC_ALL=C tr -cs \"A-Za-z0-9_-\" \"\\n\" | LC_ALL=C sort -u"
    while ((code | getline word) > 0) {
        words[word] = 1
        n = split(word, parts, "-")
        for (i = 1; i <= n; i++) words[parts[i]] = 1
    }
    close(code)
    # names in backticks that are no names of this code
    n = split("HOW LD_PRELOAD SCHED_DEADLINE UnicodeDecodeError WORDS NAME rsvg-convert sweep.py then-entries-gt64", parts, " ")
    for (i = 1; i <= n; i++) others[parts[i]] = 1
    for (path in tree) if (path ~ /^((docs|examples)\/)?[^\/]*\.md$/) pages[++count] = path
    for (p = 1; p <= count; p++) {
        fenced = 0
        while ((getline line < pages[p]) > 0) {
            if (is_prose(line) && line ~ /^#+ /) { sub(/^#+ /, "", line); anchors[pages[p], slug(line)] = 1 }
        }
        close(pages[p])
    }
    for (p = 1; p <= count; p++) {
        page = pages[p]
        fenced = 0
        nr = 0
        while ((getline line < page) > 0) {
            nr++
            if (!is_prose(line)) continue
            each_link(line)
            each_code(line)
        }
        close(page)
    }
    check_messages()
    check_calls()
    print "links: " count " pages, " faults + 0 " faults"
    exit faults > 0
}'
