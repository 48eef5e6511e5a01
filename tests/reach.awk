# Prints each row of docs/PROMISES.md that names a definition which no theorem of the row speaks of: neither the theorem, as it is written,
# nor a definition or a law that it names, nor one that these name, and so on. What names a function's contract speaks of what that cites: its
# `ensures` in the source, or what its trait's ghost member says.
# Reads the files of crates/*/src, crates/*/specs and crates/*/proofs, the page behind them.

# A file as its names begin: `specs/crate:File`.
function place(kind, crate, file) { return kind "/" crate ":" file }

# What an import brings in: names of another file, or the file itself under a name.
function imports(text,    part, list, n, i, pair, from) {
  sub(/^.*use Rattle\./, "", text)
  split(text, part, /[. ]/)
  if (part[2] != "specs" && part[2] != "proofs") return
  if (text ~ /^[a-z_0-9]+\.specs\.contracts\./) { contracts(text, part[1]); return }
  from = place(part[2], part[1], part[3])
  if (text ~ /\{/) {
    sub(/^.*\{/, "", text); sub(/\}.*/, "", text)
    n = split(text, list, / *, */)
    for (i = 1; i <= n; i++) {
      split(list[i], pair, " as ")
      word[list[i] ~ / as / ? pair[2] : pair[1]] = from "." pair[1]
    }
  } else {
    i = text; sub(/^.* as /, "", i)
    module[text ~ / as / ? i : part[3]] = from
  }
}

# The contracts of a module or of a type's methods: `src/crate:module`, `src/crate:module.Type`.
function contracts(text, crate,    of, alias) {
  of = text; sub(/^.*\.contracts\./, "", of); sub(/ .*/, "", of)
  alias = text; sub(/^.* as /, "", alias)
  module[text ~ / as / ? alias : of] = "src/" crate ":" of
}

# One of them, as `said.Type.name.ended` names it: `src/crate:module.name`, of a method `src/crate:Type.name`, whichever file it stands in.
function contract(from, text,    step, n) {
  sub(/\.ended.*$/, "", text); sub(/^[^.]*/, from, text)
  n = split(text, step, /[:.]/)
  return step[1] ":" step[n - 1] "." step[n]
}

# The names in a line are what its declaration speaks of.
function speaks(text,    list, n, i, step, name) {
  gsub(/[(){}\[\],;]/, " ", text)
  n = split(text, list, " ")
  for (i = 1; i <= n; i++) {
    split(list[i], step, ".")
    if (step[1] in word) name = word[step[1]]
    else if (step[1] in module) name = module[step[1]] ~ /^src\// ? contract(module[step[1]], list[i]) : module[step[1]] "." step[2]
    else name = here "." step[1]
    if (!((block, name) in spoken)) { spoken[block, name] = 1; names[block] = names[block] "\n" name }
  }
}

FNR == 1 && FILENAME ~ /\.rt$/ {
  split(FILENAME, path, "/"); file = path[4]; sub(/\.rt$/, "", file); here = place("src", path[2], file); type = given = ""
  block = ""; split("", word); split("", module)
}

FILENAME ~ /\.rt$/ {
  sub(/\/\/.*/, "")
  if (/^[ ]*ghost use Rattle\./) { sub(/;.*/, ""); imports($0); next }
  if (/^impl/) {
    # the methods of a type, or of a trait for it: `TaskFromEcho` is `impl From<Echo> for Task`
    type = $0; sub(/^impl(<[^>]*>)? /, "", type); sub(/ \{.*/, "", type); given = ""
    if (type ~ / for /) { given = type; sub(/ for .*/, "", given); gsub(/[^A-Za-z0-9]/, "", given); sub(/^.* for /, "", type) }
    sub(/<.*/, "", type); type = type given
  }
  if (/^}/) type = given = ""
  if (given != "" && /^ *ghost [a-z_]+_gives = /) {
    # what a trait's ghost member says is the contract of its method
    name = $2; sub(/_gives$/, "", name); block = "src/" path[2] ":" type "." name; owner[block] = block
    sub(/^[^=]*=/, ""); speaks($0)
  } else if (/^ *(pub(\([a-z]+\))? )?fn /) {
    name = $0; sub(/^.*fn /, "", name); sub(/[^a-z0-9_].*/, "", name)
    block = type == "" ? here "." name : "src/" path[2] ":" type "." name; owner[block] = block
  } else if (/^ *ensures/) speaks($0)
  next
}

FNR == 1 && FILENAME ~ /\.antt$/ {
  split(FILENAME, path, "/"); sub(/\.antt$/, "", path[4]); here = place(path[3], path[2], path[4])
  block = ""; split("", word); split("", module)
}

FILENAME ~ /\.antt$/ {
  sub(/^--.*/, ""); sub(/[ \t]--.*/, "")
  if (!NF) next
  if (/^[ \t]*(unfoldable )?(pub )?use /) { if (/use Rattle\./) imports($0); next }
  if (/^[^ \t]/ && !/^unfolding /) {
    name = $0; while (sub(/^(abbrev|unfoldable|pub|record|data) /, "", name)); sub(/[ ].*/, "", name)
    block = here "." name; owner[block] = block
  } else if (/^[ \t]+((abbrev|unfoldable) )?pub /) {
    # a field, or a case
    name = $0; sub(/^.*pub (record |data )?/, "", name); sub(/[ ].*/, "", name)
    if (!((here "." name) in owner)) owner[here "." name] = block
  }
  if (block != "") speaks($0)
  next
}

/^\| / && !/^\| rules/ {
  split($0, column, "|")
  split("", met); top = 0
  n = split(column[4], part, "`")
  for (i = 2; i <= n; i += 2) reach("proofs/" part[i])
  while (top) {
    m = split(names[queue[top--]], next_name, "\n")
    for (j = 2; j <= m; j++) reach(next_name[j])
  }
  n = split(column[3], part, "`")
  for (i = 2; i <= n; i += 2) if (!(owner["specs/" part[i]] in met)) print "no theorem of the row speaks of " part[i] ":" substr(column[2], 1, 60)
}

function reach(name) { if ((name in owner) && !(owner[name] in met)) { met[owner[name]] = 1; queue[++top] = owner[name] } }
