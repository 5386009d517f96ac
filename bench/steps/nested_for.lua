local last
for r = 1, ROUNDS do
  for i = 1, 100 do
    for j = 1, 300 do last = j end
  end
end
print(last + 1)
