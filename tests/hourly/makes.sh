# The recipes of docs/HOURLY.md that make tables, `ask`, `list` and `known`: a part of
# tests/hourly/tools, which has what is not here.

# asks RECIPE SAMPLES: the recipe, where samples, a list of pages and an older table stand
asks() {
  rm -rf "$work/asked" && mkdir "$work/asked" && cp "$2" "$work/asked/samples" || exit 2
  (
    cd "$work/asked" && echo older >table.csv || exit 2
    number=0
    while read -r hour digits; do
      number=$((number + 1))
      xxd -r -p <<<"$digits" >"page$number" && echo "$hour page$number" >>list
    done <samples
    ln -s "$program" hourly && PATH=$PWD:$PATH sh "$1"
  ) >"$work/said" 2>&1
}

# asks_well RECIPE: it makes the table; and leaves none where a page is damaged
asks_well() {
  asks "$1" crates/hourly/data/samples && cmp -s "$work/asked/table.csv" crates/hourly/stdout &&
    ! asks "$1" "$work/damaged" && [ ! -e "$work/asked/table.csv" ]
}

# asked NAME: the recipe does so, and no wrong way of it
asked() {
  local number what
  [ -x "$program" ] || { not_tried "$1" 'no program'; return; }
  there xxd || { not_tried "$1" 'no xxd'; return; }
  sed '3s/../ff/8' crates/hourly/data/samples >"$work/damaged"
  asks_well "$work/$1"
  count "$1" $?
  while read -r number what; do
    sed "$(wrong "$1" "$number")" "$work/$1" >"$work/naive"
    ! cmp -s "$work/naive" "$work/$1" && ! asks_well "$work/naive"
    count "$1, the wrong way by which $what" $?
  done < <(wrong_ways "$1")
}

# empties AWK RECIPE TABLE HOURS: the recipe known, where the table and an older known.csv stand
empties() {
  rm -rf "$work/here" && mkdir "$work/here" && cp "$3" "$work/here/table.csv" &&
    echo older >"$work/here/known.csv" || exit 2
  sed "s/hours=\"104\"/hours=\"$4\"/" "$2" >"$work/here/recipe"
  (cd "$work/here" && PATH=$1:$PATH sh recipe) >"$work/said" 2>&1
}

# empties_well AWK RECIPE: it does so as it is to be, of both tables, and of one with counters that
# were asked for twice; of an hour that the table has not it says so, and leaves no known.csv
empties_well() {
  local table every=$work/every_gap
  for table in "$work/example" "$every"; do
    empties "$1" "$2" "$table/table.csv" "${left_out[${table##*/}]}" &&
      cmp -s "$work/here/known.csv" "$table/known.csv" || return
  done
  awk '{ print } /,0(01|12),/' "$every/table.csv" >"$work/twice.csv"
  empties "$1" "$2" "$work/twice.csv" "${left_out[every_gap]}" &&
    cmp -s "$work/here/known.csv" "$every/known.csv" || return
  ! empties "$1" "$2" "$every/table.csv" '15 21 20' && [ ! -e "$work/here/known.csv" ] &&
    [ "$(cat "$work/said")" = 'no hour 21' ]
}

# known AWK: the recipe known in this awk, and its wrong ways
known() {
  local each=${1##*/} number what
  empties_well "$1" "$work/known"
  count "known, $each" $?
  while read -r number what; do
    sed "$(wrong known "$number")" "$work/known" >"$work/naive"
    ! cmp -s "$work/naive" "$work/known" && ! empties_well "$1" "$work/naive"
    count "known, $each, the wrong way by which $what" $?
  done < <(wrong_ways known)
}
