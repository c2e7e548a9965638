-- twin.lua LESSON.lua: runs the twin of a lesson and prints the nanoseconds of processor time that it took, its data with TRUE as 1, and its output.
-- A twin does the same visible work as its lesson, as one would write it in Lua; numbers have Lua's range.
local lesson = assert(loadfile(arg[1]))()
local lines = {}
local function write(line) lines[#lines + 1] = line end
local began = os.clock()
local data = lesson(write)
lines[#lines + 1] = ""
local output = table.concat(lines, "\n")
local took = os.clock() - began
for i, word in ipairs(data) do
    if type(word) == "boolean" then data[i] = word and 1 or 0 end
end
io.write(string.format("%.0f\n", took * 1e9), table.concat(data, ","), "\n", output)
