return function()
    local rounds <const> = 250
    local waiting <const>, loading <const>, moving <const>, unloading <const>, returning <const>, blocked <const> = 0, 1, 2, 3, 4, 5
    local state, ticks, place, delivered, blocks = 0, 0, 0, 0, 0
    local function one_tick()
        ticks = (ticks + 1) % 9973
        if state == waiting then
            if ticks % 3 == 0 then state = loading end
        elseif state == loading then
            place = 0
            state = moving
        elseif state == moving then
            place = place + 1
            if place == 7 then
                state = unloading
            elseif ticks % 13 == 0 then
                state = blocked
            end
        elseif state == unloading then
            delivered = (delivered + 1) % 1000000
            state = returning
        elseif state == returning then
            place = place - 1
            if place == 0 then state = waiting end
        else
            blocks = (blocks + 1) % 1000000
            state = moving
        end
    end
    for _ = 1, rounds do
        for _ = 1, 1000 do one_tick() end
    end
    return { rounds, waiting, loading, moving, unloading, returning, blocked, state, ticks, place, delivered, blocks }
end
