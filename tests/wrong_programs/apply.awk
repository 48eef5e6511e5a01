# Puts a wrong program on a tree: in the file of its crate that it names, each `old:` must stand once, and becomes `new:`.
#   awk -v crate=FOLDER [-v look=1] -f apply.awk EDIT      with look=1 nothing is written: it only says whether it still applies
# Exit status 1, and a line that says why, where it does not apply, or changes nothing.
function end(why) { print FILENAME ": " why; failed = 1; exit 1 }
# a file is read once, so that what earlier pairs made of it stands
function read(path,   line) {
	if (path in text) return
	text[path] = ""
	while ((getline line <path) > 0) text[path] = text[path] line "\n"
	close(path)
	if (text[path] == "") end("no file " path)
}
/^file: / { if (open) end("an old: without its new:"); path = crate "/" substr($0, 7); read(path) }
/^old: / { if (open) end("an old: without its new:"); if (path == "") end("an old: before any file:"); old = substr($0, 6); open = 1 }
/^new:/ {
	if (!open) end("a new: without its old:")
	new = substr($0, 6); open = 0
	if (old == new) end("changes nothing: " old)
	at = index(text[path], old)
	if (!at) end("not in " path ": " old)
	if (index(substr(text[path], at + 1), old)) end("more than once in " path ": " old)
	text[path] = substr(text[path], 1, at - 1) new substr(text[path], at + length(old))
	pairs++
}
END {
	if (failed) exit 1
	if (open) { print FILENAME ": an old: without its new:"; exit 1 }
	if (!pairs) { print FILENAME ": changes nothing"; exit 1 }
	if (!look) for (path in text) { printf "%s", text[path] >path; close(path) }
}
