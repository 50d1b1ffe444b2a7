# walk() has a local n of which each activation has its own. One variable stands for all of them: every write keeps the old
# value on one outcome, and where another activation's n comes into view, at the entry and behind the call, n may change.
proc main
  read depth
  call walk
end

proc walk
  if 0 goto entered
  n = 0
entered:
  if 0 goto kept
  n = depth - 1
kept:
  s = n * n
  if s == 0 goto done
  depth = n
  call walk
  if 0 goto returned
  n = 0
returned:
  r = n * n
  print r
done:
end
