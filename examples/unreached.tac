# What is never reached, and what may never end.
proc main
  x = 1             # never read, but not called dead: spin may follow, and never ends
  if flag goto stop
  call spin
  x = 2             # never reached: spin never comes back
stop:
  return
  print x           # never reached
end

proc spin
forever:
  goto forever
end
