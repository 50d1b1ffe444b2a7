# Live variables and available expressions over two loops, one in the other, in the manner of the exercises of 9.2 in Aho, Lam, Sethi, Ullman,
# Compilers, 2nd edition: each set was worked by hand.
proc main
  x = 1
  y = 2
outer:
  s = x + y
  t = s - x
  if s goto leave
inner:
  t = y + t
  if t goto leave
  t = x + y
  n = n + 1
  goto inner
leave:
  y = x + y
  n = s - x
  if n goto outer
  x = y * t
  y = x - t
end
