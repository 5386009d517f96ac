-- integer division that cuts toward zero
local function divide(a, b)
  local q = a // b
  if q < 0 and q * b ~= a then q = q + 1 end
  return q
end
local r = 0
local a, b, k
repeat
  a, b, k = 1, 7, 0
  repeat
    a = a * 3 + b
    if a > 2000 then a = divide(a, 9) - b end
    k = k + 1
  until k >= 30000
  r = r + 1
until r >= ROUNDS
print(a)
