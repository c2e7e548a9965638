return function(write)
    local rounds <const> = 100
    local written = 0
    for _ = 1, rounds do
        for part = 1, 1000 do
            write("part " .. part)
            write("row " .. part // 12 - 40)
            if part % 12 == 0 then write("a new pallet") end
            written = (written + 2) % 1000000
        end
    end
    return { rounds, written }
end
