# Prints the command or option of the program's table, which is read, that is nearest to the word of the environment's WORD, where one is near:
# a third of the word's length, or one letter, may be written wrong.
function least(a, b) { return a < b ? a : b }
function distance(a, b, i, j, row, corner, above) {
  for (j = 0; j <= length(b); j++) row[j] = j
  for (i = 1; i <= length(a); i++) {
    corner = row[0]
    row[0] = i
    for (j = 1; j <= length(b); j++) {
      above = row[j]
      row[j] = least(corner + (substr(a, i, 1) != substr(b, j, 1)), 1 + least(above, row[j - 1]))
      corner = above
    }
  }
  return row[length(b)]
}
function try_word(it, far) {
  far = distance(word, it)
  if (far <= most && (meant == "" || far < best)) { meant = it; best = far }
}
BEGIN {
  word = ENVIRON["WORD"]
  most = int(length(word) / 3)
  if (most < 1) most = 1
}
# A command stands behind two blanks, with its options behind it.
/^  [a-z]/ {
  if (word !~ /^-/) { try_word($1); next }
  rest = $0
  while (match(rest, /--?[A-Za-z][a-z-]*/)) {
    try_word(substr(rest, RSTART, RLENGTH))
    rest = substr(rest, RSTART + RLENGTH)
  }
}
END { if (meant != "") print meant }
