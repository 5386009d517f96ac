local k = 0
local a
repeat
  a = 0
  repeat a = a + 1 until a >= 30000
  k = k + 1
until k >= ROUNDS
print(a)
