# Both sides of the test evaluate b + c, so it may be computed before it.
proc main
  read b
  read c
  if c goto right
  x = b + c
  print x
  return
right:
  y = b + c
  print y
end
