return function()
    local rounds <const>, count <const> = 10, 400
    local tray, moved = {}, 0
    local function fill(first)
        local weight = first
        for slot = 1, count do
            weight = (weight * 421 + 1663) % 7875
            tray[slot] = weight
        end
    end
    local function sort()
        for next = 2, count do
            local part, slot = tray[next], next
            while slot > 1 and tray[slot - 1] > part do
                tray[slot] = tray[slot - 1]
                slot = slot - 1
            end
            tray[slot] = part
            moved = (moved + next - slot) % 1000000
        end
    end
    for round = 1, rounds do
        fill(round)
        sort()
    end
    local data = { rounds, count }
    for slot = 1, count do data[#data + 1] = tray[slot] end
    data[#data + 1] = moved
    return data
end
