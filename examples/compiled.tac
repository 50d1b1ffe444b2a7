# As a compiler writes it: sorts three inputs, finds their greatest common divisor
# by remainders, and prints a small table of its multiples.
proc main
  call input
  call sort
  u = a
  v = b
  call gcd
  u = u
  v = c
  call gcd
  g = u
  print g
  call table
  status = 0
  print status
end

proc input
  read a
  read b
  read c
  # only positive numbers are wanted
  if a <= 0 goto bad
  if b <= 0 goto bad
  if c > 0 goto good
bad:
  a = 1
  b = 1
  c = 1
good:
end

proc sort
  t1 = a <= b
  if t1 goto first
  call swap_ab
first:
  t2 = b <= c
  if t2 goto second
  t = b
  b = c
  c = t
second:
  if a <= b goto sorted
  call swap_ab
sorted:
end

proc swap_ab
  t = a
  a = b
  b = t
end

proc gcd
loop:
  ifFalse v goto done
  t = u % v
  u = v
  v = t
  goto loop
done:
  return
end

proc table
  i = 1
row:
  if i > 10 goto end_of_table
  m = g * i
  odd = i & 1
  if odd goto print_it
  m = ~m
  m = m + 1          # -m in two's complement
print_it:
  call plain | doubled
  i = i + 1
  goto row
end_of_table:
end

proc plain
  print m
end

proc doubled
  t3 = m << 1
  print t3
end
