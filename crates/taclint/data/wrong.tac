proc main
  x = y;
end
