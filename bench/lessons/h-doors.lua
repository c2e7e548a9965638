return function()
    local rounds <const> = 150
    local door_open, barrier, key_turned, may_move = false, false, true, false
    local moves, stops = 0, 0
    for _ = 1, rounds do
        for turn = 1, 1000 do
            door_open = turn % 5 == 0 or turn % 17 == 3
            barrier = (turn > 400 and turn < 450) ~= (turn % 11 == 0)
            local left = turn % 2 == 0
            local right = turn % 3 ~= 1
            may_move = not (door_open and left) or key_turned and (left and right) and not barrier
            if may_move and (left or right) then
                moves = (moves + 1) % 1000000
            else
                stops = (stops + 1) % 1000000
            end
        end
    end
    return { rounds, door_open, barrier, key_turned, may_move, moves, stops }
end
