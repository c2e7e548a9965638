return function()
    local rounds <const> = 100
    local taken, broken, slips, share, force = 0, 0, 0, 0, 0
    local function grip(part)
        if part % 7 == 0 then error(12, 0) end
        if part % 3 == 0 and force < 2 then error(11, 0) end
    end
    local function handle(part)
        while true do
            local good, number = pcall(grip, part)
            if good then
                taken = (taken + 1) % 1000000
                return
            elseif number == 11 then
                slips = (slips + 1) % 1000000
                force = force + 1
            else
                broken = (broken + 1) % 1000000
                error(number, 0)
            end
        end
    end
    local function divide(part) share = 1000 // (part % 4) end
    for _ = 1, rounds do
        for part = 1, 1000 do
            force = 1
            pcall(handle, part)
            pcall(divide, part)
        end
    end
    return { rounds, taken, broken, slips, share, force }
end
