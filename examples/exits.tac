# fail() ends the program from within a call: it raises a flag and returns, and behind each call that may end in it the
# flag is tested, up to the end of main. What is looked at when the program ends is printed there.
proc main
  stopping = 0
  code = 0
  call work
  if stopping goto end_of_main
  result = 1
  print result
end_of_main:
  print code
end

proc work
  read input
  if input goto fine
  code = 2
  stopping = 1
  return
fine:
  call check
  if stopping goto end_of_work
  code = 0
end_of_work:
end

proc check
  if input < 9 goto small
  code = 3
  stopping = 1
small:
end
