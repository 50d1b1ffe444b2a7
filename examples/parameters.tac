# y = square(3); z = square(y): a parameter and a result are globals of the procedure's own, set before the call and read
# behind it. The local t of square needs nothing more, since square never calls itself.
proc main
  square_n = 3
  call square
  y = square_result
  square_n = y
  call square
  z = square_result
  print z
end

proc square
  square_t = square_n * square_n
  square_result = square_t
end
