# Anticipated expressions, here called very busy, in the manner of the exercises of 9.5 in Aho, Lam, Sethi, Ullman, Compilers, 2nd edition: a + b
# is needed on each way behind the test, but one way writes a first; a - b is needed in each turn of the loop. Each set was worked by hand.
proc main
  read a
  read b
  read n
  if n goto made
  a = b * 2
  goto join
made:
  x = a + b
  print x
join:
  y = a + b
  print y
again:
  z = a - b
  print z
  n = n - 1
  if n > 0 goto again
end
