# Factorial by recursion over global variables.
proc main
  read n
  result = 1
  call factorial
  print result
end

proc factorial
  if n <= 1 goto base
  result = result * n
  n = n - 1
  call factorial        # comes back here, and nowhere else
base:
end
