-- integer division that cuts toward zero
local function divide(a, b)
  local q = a // b
  if q < 0 and q * b ~= a then q = q + 1 end
  return q
end
local j = 100
local a
for r = 1, ROUNDS do
  for i = 1, 20000 do
    a = divide(j, 7) * 7 + i
  end
end
print(a)
