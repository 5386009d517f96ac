-- integer division that cuts toward zero
local function divide(a, b)
  local q = a // b
  if q < 0 and q * b ~= a then q = q + 1 end
  return q
end
local function absolute(a)
  if a < 0 then return -a end
  return a
end
local j, a, b = 100, 0, 0
for r = 1, ROUNDS do
  for i = 1, 30000 do
    a = divide(i, 3) * 2 - i + divide(a, 2) + (i > j and 1 or 0) * 7
    b = divide(absolute(a - b), 3) + 1
  end
end
print(a + b)
