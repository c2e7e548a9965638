return function()
    local rounds <const> = 150
    local boxes, heaviest = {}, 0
    local function weighed(part, round, tare) return (part * 131 + round) % 6011 - tare end
    local function held(value, least, most)
        if value < least then return least end
        if value > most then return most end
        return value
    end
    local function book(part, weight)
        boxes[part % 12 + 1] = weight
        if weight > heaviest then heaviest = weight end
    end
    local weight
    for round = 1, rounds do
        for part = 1, 1000 do
            weight = weighed(part, round, 37)
            weight = held(weight, 100, 5000)
            book(part, weight)
        end
    end
    local data = { rounds }
    for box = 1, 12 do data[#data + 1] = boxes[box] end
    data[#data + 1] = heaviest
    return data
end
