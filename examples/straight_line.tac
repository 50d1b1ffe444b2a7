# A straight line: the second use of b + c needs no second addition.
proc main
  b = 3
  c = 4
  a = b + c
  d = b + c
  print a
  print d
end
