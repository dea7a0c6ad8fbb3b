# Fails where a source file breaks CONTRIBUTING.md's rules on length: a function has at most 40 lines, from its `fn` to its last brace, and a file at most 400.
# A method stands deeper than a function; its last brace stands as deep as its `fn`.
FNR == 1 { open = 0 }
/^ *(pub |pub\([a-z]+\) )?(extern "C" )?fn / {
    open = 1
    from = FNR
    name = $0
    sub(/ *[(<].*/, "", name)
    sub(/.*fn /, "", name)
    match($0, /^ */)
    last = substr($0, 1, RLENGTH) "}"
}
# One on a single line.
open && from == FNR && /}$/ { functions++; open = 0 }
open && $0 == last {
    functions++
    open = 0
    if (FNR - from + 1 > 40) { print FILENAME ":" from ": " name " has " FNR - from + 1 " lines, 40 at most"; faults++ }
}
FNR == 401 { print FILENAME ": more than 400 lines"; faults++ }
END {
    print "sources: " functions + 0 " functions, " faults + 0 " too long"
    exit faults > 0 || functions == 0
}
