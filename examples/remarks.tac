# Each kind of remark that a report makes, once.
proc main
  read a
  read b
  x = a + b
  y = a + b               # computed just above
  if x < y goto larger    # a * b comes next on both sides
  z = a * b
  goto shown
larger:
  z = a * b
  x = 0                   # nothing reads x from here on
shown:
  print z
  print count             # never set
  return
  print y                 # never reached
end
