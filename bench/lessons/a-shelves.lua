return function()
    local rounds <const>, rows <const> = 60, 30
    local parts, check_sum = 0, 0
    for _ = 1, rounds do
        parts = 0
        for shelf = 1, 20 do
            for row = 1, rows do
                for slot = 10, 1, -1 do
                    parts = parts + 1
                    check_sum = (check_sum + shelf * row + slot) % 10007
                end
            end
        end
    end
    return { rounds, rows, parts, check_sum }
end
