return function()
    local rounds <const> = 10
    local found
    local function ways(height)
        if height < 2 then return 1 end
        local low = ways(height - 1)
        local high = ways(height - 2)
        return low + high
    end
    for _ = 1, rounds do found = ways(20) end
    return { rounds, found }
end
