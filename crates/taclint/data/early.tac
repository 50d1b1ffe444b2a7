proc main
  x = 1
  return
  print x
end
