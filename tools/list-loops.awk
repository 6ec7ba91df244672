# What tools/list-loops does with the assembly of clang for `machine`, x86_64 or aarch64.
function begin_block(label) {
  block = label
  loop = ""
}
function is_vector(word, operands) {
  if (machine == "x86_64") return operands ~ /%[xyz]mm/ && word !~ /s[sd]$/
  return operands ~ /(^|[^a-z0-9_])[vqd][0-9]/
}
function is_product(word) { return word ~ /mul|pmadd|ml[as]|^[su]?m(add|sub)/ }
function count(word, operands) {
  instructions[loop]++
  if (is_vector(word, operands)) vectors[loop]++
  if (!is_product(word)) return
  if (!((loop, word) in products)) words[loop] = words[loop] " " word
  products[loop, word]++
}
function product_list(loop, list, n, i, text) {
  n = split(words[loop], list, " ")
  for (i = 1; i <= n; i++) text = text (i > 1 ? ", " : "") products[loop, list[i]] " " list[i]
  return n ? text : "none"
}
function print_loops(i, id) {
  for (i = 1; i <= loops; i++) {
    id = order[i]
    if (!vectors[id]) without++
    if (vectors[id] || words[id])
      printf "| %s | %s | %s | %d | %d | %s |\n", home[id], name[id], inner[id], instructions[id], vectors[id], product_list(id)
  }
}

/^[^ \t.#\/].*:/ {
  fun = $1
  sub(/:$/, "", fun)
  gsub(/"/, "", fun)
  begin_block("")
}
/^\.LBB[0-9_]+:/ {
  begin_block(substr($1, 3, length($1) - 3))
  called = $NF ~ /^%/ ? substr($NF, 2) : block
}
/^(#|\/\/) %bb\.[0-9]+:/ { begin_block("") }
/This (Inner )?Loop Header/ {
  order[++loops] = loop = block
  home[loop] = fun
  name[loop] = called
  inner[loop] = /Inner/ ? "yes" : "no"
}
/in Loop: Header=BB/ {
  loop = $0
  sub(/.*Header=/, "", loop)
  sub(/ .*/, "", loop)
}
/^\t[a-z]/ && loop != "" {
  operands = $0
  sub(/^\t[^ \t]*[ \t]*/, "", operands)
  sub(/[ \t]*(#|\/\/).*/, "", operands)
  count($1, operands)
}
END {
  print "| Function | Loop | Innermost | Instructions | Vector | Multiplications |"
  print "|---|---|---|---|---|---|"
  print_loops()
  printf "\n%d loops; %d of them have no vector instruction.\n", loops, without
}
