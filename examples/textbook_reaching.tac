# Reaching definitions: the flow graph of figure 9.13 of Aho, Lam, Sethi, Ullman, Compilers, 2nd edition, with names of our own.
# Block   gen          kill              in                     out
# 1       d1 d2 d3     d4 d5 d6 d7                              d1 d2 d3
# 2       d4 d5        d1 d2 d7          d1 d2 d3 d5 d6 d7      d3 d4 d5 d6
# 3       d6           d3                d3 d4 d5 d6            d4 d5 d6
# 4       d7           d1 d4             d3 d4 d5 d6            d3 d5 d6 d7
proc main
  left = 0                  # block 1: d1
  right = 9                 # d2
  key = 1                   # d3
again:
  left = left + 1           # block 2: d4
  right = right - 1         # d5
  if left < right goto keep
  key = 2                   # block 3: d6
keep:
  left = 3                  # block 4: d7
  if key < right goto again
end
