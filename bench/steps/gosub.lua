local function subroutine() return end
local r = 0
local k
repeat
  k = 0
  repeat
    subroutine()
    k = k + 1
  until k >= 30000
  r = r + 1
until r >= ROUNDS
print(k)
