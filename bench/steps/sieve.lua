local l = 8000
local sieve = {}
local c
for r = 1, ROUNDS do
  for i = 0, l do sieve[i] = 1 end
  c = 0
  for i = 2, l do
    if sieve[i] ~= 0 then
      c = c + 1
      if i <= 89 then
        for j = i * i, l, i do sieve[j] = 0 end
      end
    end
  end
end
print(c)
