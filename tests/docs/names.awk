# Reads the tables of documents. In a row, what stands between backquotes is a name, and the name is defined in exactly one of the files
# that the row cites; where two of them define it, its crate or its file stands before it: `arc_swap::left`, `Run::run`. A file or a folder
# is cited by its path from the repository's root. Prints a line for each fault, then the counts, and exits with 1 where there is a fault.

function fault(what) {
    faults++
    printf "%s:%d: %s\n", FILENAME, FNR, what
}

function exists(path) {
    if (!(path in there))
        there[path] = system("[ -e '" path "' ]") == 0
    return there[path]
}

# In antt a definition is a signature, `name :`, after its modifiers, or a record or data type; so fields and constructors count too. What
# stands deeper than a line `where` of its own is local to a proof, and does not.
function antt_name(line, words,   count, i, indent) {
    if (line ~ /^ *(--|$)/)
        return ""
    match(line, /^ */)
    indent = RLENGTH
    if (local >= 0 && indent > local)
        return ""
    local = -1
    count = split(line, words, " ")
    if (count == 1 && words[1] == "where")
        local = indent
    for (i = 1; i < count && (words[i] == "pub" || words[i] == "abbrev" || words[i] == "unfoldable"); i++)
        ;
    if (words[i] == "record" || words[i] == "data")
        return words[i + 1]
    return words[i + 1] == ":" ? words[i] : ""
}

# In Rattle it is a function, a struct, an enum or a constant.
function rt_name(line, words,   count, i, name) {
    if (line ~ /^ *(\/\/|$)/)
        return ""
    count = split(line, words, " ")
    for (i = 1; i < count && (words[i] == "pub" || words[i] == "pub(crate)" || words[i] == "extern" || words[i] == "\"C\""); i++)
        ;
    if (words[i] != "fn" && words[i] != "struct" && words[i] != "enum" && words[i] != "const")
        return ""
    name = words[i + 1]
    sub(/[^A-Za-z0-9_].*/, "", name)
    return name
}

# Notes what a file defines. A must-fail edit defines its own name.
function learn(file,   line, words, name) {
    if (file in learnt)
        return
    learnt[file] = 1
    local = -1
    if (file ~ /\.edit$/) {
        defined[file, stem(file)] = 1
        return
    }
    while ((getline line < file) > 0) {
        name = file ~ /\.rt$/ ? rt_name(line, words) : antt_name(line, words)
        if (name != "")
            defined[file, name] = 1
    }
    close(file)
}

function stem(file) {
    sub(/.*\//, "", file)
    sub(/\.[a-z]+$/, "", file)
    return file
}

function crate(file,   parts) {
    return split(file, parts, "/") > 1 && parts[1] == "crates" ? parts[2] : ""
}

# What stands before a name is the crate of a file, or the file's name without its ending.
function meant(file, parts, count,   i) {
    for (i = 1; i < count; i++)
        if (parts[i] != crate(file) && parts[i] != stem(file))
            return 0
    return (file, parts[count]) in defined
}

function look_up(cited, files, file_count,   parts, count, i, found) {
    names++
    named[FILENAME]++
    count = split(cited, parts, "::")
    found = ""
    for (i = 1; i <= file_count; i++)
        if (meant(files[i], parts, count)) {
            if (found != "")
                fault("`" cited "` is defined in " found " and in " files[i] ": its crate or its file must stand before it")
            found = files[i]
        }
    if (found == "")
        fault("`" cited "` is not defined in the files that its row cites")
}

FNR == 1 { documents[++document_count] = FILENAME }

/^\|/ {
    quoted_count = split($0, quoted, "`")
    if (quoted_count % 2 == 0)
        fault("a backquote is not closed")
    text = ""
    for (i = 1; i <= quoted_count; i += 2)
        text = text " " quoted[i]
    gsub(/[^A-Za-z0-9_.\/-]/, " ", text)
    word_count = split(text, words, " ")
    file_count = 0
    split("", seen)
    for (i = 1; i <= word_count; i++) {
        path = words[i]
        sub(/\.$/, "", path)
        if (path !~ /^(\.ci|bench|bin|crates|docs|examples|include|tests|tools)\// && path !~ /\.(antt|rt|edit|md|c|h|awk|py|sh|plan)$/)
            continue
        paths++
        if (!exists(path))
            fault(path " is not there")
        else if (path ~ /\.(antt|rt|edit)$/ && !(path in seen)) {
            seen[path] = 1
            learn(path)
            files[++file_count] = path
        }
    }
    for (i = 2; i <= quoted_count; i += 2)
        if (quoted[i] ~ /[ |]/ || quoted[i] == "")
            fault("no name: `" quoted[i] "`")
        else
            look_up(quoted[i], files, file_count)
}

END {
    for (i = 1; i <= document_count; i++)
        if (!named[documents[i]]) {
            faults++
            print documents[i] ": no table of it has a name"
        }
    printf "documents: %d names and %d paths in tables, %d faults\n", names, paths, faults
    exit faults > 0 || document_count == 0
}
