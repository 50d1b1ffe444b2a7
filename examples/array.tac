# An array is one variable. x[i] = v keeps the other elements; v = x[i] is an expression over x and i, by an operator
# that the source has no other use for on arrays.
proc main
  read x
  read i
  v = x ^ i
  w = x ^ i
  if i goto store
store:
  if 0 goto kept
  x = v
kept:
  u = x ^ i
  print w
  print u
end
