# A library: its procedures are called from outside, in any order, any number of times. What its caller may look at behind
# the last call is printed at the end.
proc main
again:
  if 0 goto done
  call open | put | close
  goto again
done:
  print status
end

proc open
  count = 0
  status = 1
end

proc put
  count = count + 1
  status = count
end

proc close
  spare = count
  status = 0
end
