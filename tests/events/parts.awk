# One part of a source of event vectors: `events` (its bytes as octal escapes,
# an event a line), `run` or `trace` (its expected lines).

BEGIN {
	digits = "0123456789abcdef"
	for (i = 0; i < 256; i++) {
		hex = substr(digits, int(i / 16) + 1, 1) substr(digits, i % 16 + 1, 1)
		octal[hex] = sprintf("\\%03o", i)
	}
	line = ""
	times = pending = 1
}

{ sub(/#.*/, "") }

# The next event and its line, so many times over.
/^times / {
	finish()
	if ($2 !~ /^[1-9][0-9]*$/ || NF > 2)
		fault("no number of times")
	pending = $2
	next
}

# Behind `>` a new expected line, behind `>>` more of it.
/^>>/ { line = line " " substr($0, 3); next }
/^>/ { finish(); line = substr($0, 2); next }
NF > 0 {
	finish()
	times = pending
	pending = 1
	if (part == "events")
		for (i = 0; i < times; i++)
			print escaped(tolower($0))
}
END { finish() }

function fault(text) {
	print source ".txt:" NR ": " text > "/dev/stderr"
	exit 1
}

function escaped(text,    all, i) {
	gsub(/[ \t]/, "", text)
	if (text ~ /[^0-9a-f]/ || length(text) % 2)
		fault("no row of bytes")
	all = ""
	for (i = 1; i < length(text); i += 2)
		all = all octal[substr(text, i, 2)]
	return all
}

# `aa` is a byte, `aabb` two, `aa*3` three times aa.
function expanded(word,    pair, all, i) {
	if (word !~ /\*/)
		return word
	split(word, pair, "*")
	all = ""
	for (i = 0; i < pair[2]; i++)
		all = all pair[1]
	return all
}

function check(reply,    pair, head) {
	split(reply, pair, "=")
	split(pair[1], head, ":")
	if (length(pair[2]) != 2 * head[2])
		fault("length of " pair[1] " is not that of its bytes")
}

# Prints the expected line that has been read so far.
function finish(    words, n, i, text, reply, halves) {
	if (line == "")
		return
	n = split(line, words, " ")
	line = ""
	text = ""
	reply = ""
	for (i = 2; i <= n; i++) {
		if (words[i] !~ /:/ && reply == "") {
			text = text " " words[i]
			continue
		}
		if (words[i] ~ /:/) {
			text = text shown(reply)
			sub(/=/, "= ", words[i])
			split(words[i], halves, " ")
			reply = halves[1] expanded(halves[2])
		} else
			reply = reply expanded(words[i])
	}
	text = text shown(reply)
	if (part == "events")
		return
	print words[1] text
	for (i = 1; i < times; i++)
		print (words[1] + i) text
}

# A whole reply as the part shows it.
function shown(reply) {
	if (reply == "")
		return ""
	check(reply)
	if (part == "run")
		sub(/=.*/, "", reply)
	return " " reply
}
