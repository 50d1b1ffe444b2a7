# A call that may go to any of three procedures, as a call through a table does.
proc main
  read left
  read right
  read which
again:
  call add | subtract | negate
  print left
  which = which - 1
  if which > 0 goto again
end

proc add
  left = left + right
end

proc subtract
  left = left - right
end

proc negate
  left = -left
end
