# Tries one edit: each `old:` text must stand exactly once in the file that the last `file:` line names, and `new:` takes its place.
# usage: DIR=FOLDER [WRITE=1] awk -f edit.awk EDIT    (FOLDER is what the files are named from; with WRITE they are changed there)
# Exit status 1, and one line that says why, where the edit can't be applied.
function bad(why) { print FILENAME ": " why; failed = 1; exit 1 }

function load(name,    line, path) {
    if (name in text) return
    if (name == "" || ("/" name "/") ~ /\/\.\.\// || name ~ /^\//) bad("a `file:` line names no file of its folder")
    path = ENVIRON["DIR"] "/" name
    text[name] = ""
    while ((status = (getline line < path)) > 0) text[name] = text[name] line "\n"
    close(path)
    if (status < 0 || text[name] == "") bad("there is no file " name)
}

/^file: / { file = substr($0, 7) }
/^old: / { old = substr($0, 6) }
/^new:/ {
    new = substr($0, 5)
    if (substr(new, 1, 1) == " ") new = substr(new, 2)
    load(file)
    if (old == "") bad("a `new:` line has no `old:` text before it")
    at = index(text[file], old)
    if (!at) bad("an `old:` text is not in " file ": " old)
    rest = substr(text[file], at + length(old))
    if (index(rest, old)) bad("an `old:` text is in " file " more than once: " old)
    text[file] = substr(text[file], 1, at - 1) new rest
    old = ""
    pairs++
}

END {
    if (failed) exit 1
    if (!pairs) bad("it has no `old:` and `new:` pair")
    if (ENVIRON["WRITE"]) for (name in text) { printf "%s", text[name] > (ENVIRON["DIR"] "/" name) }
}
