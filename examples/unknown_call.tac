# unknown() may read and write the globals a and b, any number of times, and may call back report_error. It can't see c.
proc main
  a = 1
  b = 2
  c = 3
  s = a + c
  call unknown
  t = a + c
  print s
  print t
end

proc unknown
again:
  if 0 goto done
  if a goto read_a
read_a:
  if b goto read_b
read_b:
  if 0 goto kept_a
  a = 0
kept_a:
  if 0 goto kept_b
  b = 0
kept_b:
  if 0 goto again
  call report_error
  goto again
done:
end

proc report_error
  print b
end
