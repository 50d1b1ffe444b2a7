# *p = 7, where p may point to a or to b: each is written on one outcome of a test and kept on the other.
proc main
  a = 1
  b = 2
  c = 3
  s = a + b
  if 0 goto to_b
  a = 7
  goto stored
to_b:
  b = 7
stored:
  t = a + b
  print s
  print t
  print c
end
