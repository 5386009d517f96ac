for r = 1, ROUNDS do
  for i = 1, 30000 do
    io.write(string.format("%6dHELLO, WORLD%d %9d\rX\n", i, i // 2, -i))
  end
end
