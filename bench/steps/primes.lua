-- integer division that cuts toward zero
local function divide(a, b)
  local q = a // b
  if q < 0 and q * b ~= a then q = q + 1 end
  return q
end
local n, f
local function test()
  f = 1
  local d = 3
  while d * d <= n do
    if divide(n, d) * d == n then
      f = 0
      return
    end
    d = d + 2
  end
end
local c
for r = 1, ROUNDS do
  c = 1
  n = 3
  while n <= 3000 do
    test()
    if f == 1 then c = c + 1 end
    n = n + 2
  end
end
print(c)
