# Prints the places of a source that make an out-of-memory answer of their own.
#
# Out of memory as a value is `AllocError`, or a variant `NoMemory` or `OutOfMemory`. It may stand in a function that is given one, by
# a parameter, by `self` or as the source of its `impl From`:
#   anywhere, where that is an `AllocError`, an `AllocFailed` or a `ResetError`;
#   where that is a fault or an answer which may be out of memory (`faults` has their names), in an arm whose pattern says so, or under
#   an `if` that asks so.
# It may also stand under an `if` that compares what a call gave with a variant of such a fault, named by its enum, or in an arm for a
# variant of a fault of the toolchain's crates, which nothing here makes.
# In a pattern, a comparison, a type or a contract it is no value.

BEGIN {
  split("AllocError AllocFailed ResetError", list, " ")
  for (i in list) given_by[list[i]] = 2
  of_the_toolchain["FromHexError"] = 1
  count = split(faults, list, " ")
  for (i = 1; i <= count; i++) given_by[list[i]] = 1
}

{ text = text $0 "\n" }

END {
  read_words()
  for (at = 1; at <= words; at++) {
    w = word[at]
    if (w == "use" || w == "ghost") pass_item()
    else if (w == "enum" || w == "struct") pass_type()
    else if (w == "requires") pass_clause()
    else if (w == "impl") open_impl()
    else if (w == "fn" && word[at + 1] ~ /^[A-Za-z_]/) open_function()
    else if (w == "{") open_block("block", 0, asks_so(from, at - 1))
    else if (w == "}") close_block()
    else if (w == "=>") says_so[depth] = arm_says(from, at - 1)
    else if (names_it(at, at) && !is_no_value(at) && !is_allowed()) print name ":" line[at] ": an out-of-memory answer of its own"
    if (word[at] ~ /^([{};,]|=>)$/) from = at + 1
  }
}

# The source as words and marks, without comments and without what strings and characters hold.
function read_words(    rest, lines) {
  rest = text
  lines = 1
  while (rest != "") {
    if (match(rest, /^[ \t\r]+/)) ;
    else if (match(rest, /^\n/)) lines++
    else if (match(rest, /^\/\/[^\n]*/)) ;
    else if (match(rest, /^b?"([^"\\]|\\.|\\\n)*"/) || match(rest, /^b?'([ -&(-[\]-~]|[\200-\377]+|\\[^\n][^'\n]*)'/)) { lines += newlines(substr(rest, 1, RLENGTH)); add_word("\"\"", lines) }
    else if (match(rest, /^'/)) ;
    else if (match(rest, /^[A-Za-z0-9_]+/) || match(rest, /^(=>|==|!=|::|->|<=|>=)/) || match(rest, /^./)) add_word(substr(rest, 1, RLENGTH), lines)
    rest = substr(rest, RLENGTH + 1)
  }
}

function newlines(part) { return gsub(/\n/, "", part) }

function add_word(w, lines) { word[++words] = w; line[words] = lines }

function names_it(i, j) {
  for (; i <= j; i++) if (word[i] ~ /^(AllocError|NoMemory|OutOfMemory)$/) return 1
  return 0
}

# From an opening brace to the one that closes it.
function pass_braces(    open) {
  open = 1
  while (open > 0 && at < words) {
    at++
    if (word[at] == "{") open++
    else if (word[at] == "}") open--
  }
}

# An import, a ghost member or a ghost field.
function pass_item() {
  while (at < words && word[at] !~ /^[;,]$/) {
    at++
    if (word[at] == "{") pass_braces()
  }
}

function pass_type() {
  while (at < words && word[at] !~ /^[{;(]$/) at++
  if (word[at] == "{") pass_braces()
}

# A clause of a contract, which may have a name.
function pass_clause() {
  while (at < words && word[at] != "{") at++
  pass_braces()
}

function open_block(what, gives, asks) {
  depth++
  kind[depth] = what
  given[depth] = gives
  asked[depth] = asks
  says_so[depth] = 0
}

function close_block() {
  if (kind[depth] == "impl") of_self = ""
  if (depth > 0) depth--
}

# What these words give: 2 out of memory, 1 what may be that, 0 neither.
function gift(i, j,    w, most) {
  for (; i <= j; i++) {
    w = word[i] == "self" ? of_self : word[i]
    if (w != "" && (w in given_by) && given_by[w] > most) most = given_by[w]
  }
  return most + 0
}

function open_impl(    start, i, angles) {
  start = at
  of_self = ""
  while (at < words && word[at] != "{") at++
  for (i = start; i < at; i++) if (word[i] == "for") start = i
  for (i = start + 1; i < at; i++) {
    if (word[i] == "<") angles++
    else if (word[i] == ">") angles--
    else if (!angles && word[i] ~ /^[A-Z]/) of_self = word[i]
  }
  open_block("impl", 0, 0)
}

# A function: its parameters, its contract, and its body, unless it has none.
function open_function(    start, parens, gives) {
  while (at < words && word[at] != "(") at++
  start = at
  do {
    if (word[at] == "(") parens++
    else if (word[at] == ")") parens--
  } while (parens > 0 && at++ < words)
  gives = gift(start, at)
  while (at < words && word[at] !~ /^[{;]$/) {
    at++
    if (word[at] ~ /^(requires|ensures|decreases)$/) pass_clause()
  }
  if (word[at] == "{") open_block("fn", gives, 0)
}

# Whether these words are a pattern that says so: 2 where it is a variant of a fault of the toolchain, named by its enum.
function arm_says(i, j,    from_enum) {
  if (!names_it(i, j)) return 0
  for (from_enum = 0; i < j; i++) if ((word[i] in of_the_toolchain) && word[i + 1] == "::" && names_it(i + 2, i + 2)) from_enum = 1
  return from_enum ? 2 : 1
}

# Whether these words are an `if` that compares something with out of memory, or an `if let` for it: 2 where that is a variant of a fault, named by its
# enum.
function asks_so(i, j,    asks) {
  for (; i <= j; i++) if (word[i] == "if") break
  for (asks = 0; i <= j; i++) {
    if (word[i] == "==" || word[i] == "let" && is_pattern(i)) asks = names_it(i, j)
    else if (asks && (word[i] in given_by) && word[i + 1] == "::") return 2
  }
  return asks
}

# Whether the pattern behind this `let` is a variant for out of memory and nothing else.
function is_pattern(i) {
  for (i++; word[i] ~ /^[A-Za-z]/ && word[i + 1] == "::"; i += 2) ;
  return names_it(i, i) && word[i + 1] == "="
}

# Whether out of memory stands here in a pattern, a comparison or a type.
function is_no_value(i,    j, parens) {
  if (word[i + 1] ~ /^(::|>|<|==|!=)$/) return 1
  for (j = i; j > 0 && word[j] !~ /^[;{}]$/; j--) if (word[j] == "type") return 1
  for (j = i - 1; word[j] == "::" || word[j] == "(" || word[j + 1] == "::" || word[j + 1] == "("; j--) ;
  if (word[j] ~ /^(==|!=|->)$/) return 1
  for (j = i + 1; j <= words && word[j] !~ /^[;{}]$/; j++) {
    if (word[j] == "=>") return 1
    if (word[j] == "(") parens++
    else if (word[j] == ")") parens--
    else if (word[j] == "," && parens <= 0) return 0
    else if (word[j] == "=") return is_let(i)
    else if (word[j] == "if") return is_guarded(j)
  }
  return 0
}

function is_let(i) {
  for (; i > 0 && word[i] !~ /^[;{}=]$/; i--) if (word[i] == "let") return 1
  return 0
}

function is_guarded(i) {
  for (; i <= words && word[i] !~ /^[;{}]$/; i++) if (word[i] == "=>") return 1
  return 0
}

# Whether the function around this place is given what stands here.
function is_allowed(    i, so) {
  for (i = depth; i > 0; i--) {
    if (asked[i] == 2 || says_so[i] == 2) return 1
    if (asked[i] || says_so[i]) so = 1
    if (kind[i] == "fn") return given[i] == 2 || (given[i] == 1 && so)
  }
  # Outside functions it stands in types alone, but for constants.
  return word[at - 1] !~ /^(=|::)$/
}
