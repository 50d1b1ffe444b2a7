# Sums the numbers that are read, until a zero.
proc main
  sum = 0
next:
  read x
  ifFalse x goto done
  sum = sum + x
  goto next
done:
  print sum
end
