-- Splits a text into words, counts them, encodes the counts as JSON and reads that back; then
-- permutations by a coroutine, and garbage.
local text = [[
A tenant is a program. A host runs the programs of several tenants, each for a slice of steps, on
one machine whose memory has tags. A pointer has a tag; a granule of the memory has one too; a load
whose pointer has another tag than the memory faults. Where a chunk is freed it is given another
tag, and so the next load through an old pointer faults.
]]

local counts, order = {}, {}
for word in text:lower():gmatch("%a+") do
  if not counts[word] then order[#order + 1] = word end
  counts[word] = (counts[word] or 0) + 1
end
table.sort(order, function(a, b)
  if counts[a] ~= counts[b] then return counts[a] > counts[b] end
  return a < b
end)
for i = 1, 8 do
  local count = counts[order[i]]
  print(("%-8s %3d %5.1f%%"):format(order[i], count, 100 * count / #order))
end

local function encode(value)
  if type(value) == "table" then
    local parts = {}
    if #value > 0 then
      for _, item in ipairs(value) do parts[#parts + 1] = encode(item) end
      return "[" .. table.concat(parts, ",") .. "]"
    end
    for _, key in ipairs(order) do
      if value[key] ~= nil then parts[#parts + 1] = ("%q:%s"):format(key, encode(value[key])) end
    end
    return "{" .. table.concat(parts, ",") .. "}"
  end
  return type(value) == "string" and ("%q"):format(value) or tostring(value)
end

local function decode(source)
  local at = 1
  local function value()
    local open = source:sub(at, at)
    if open == "{" or open == "[" then
      local result = {}
      at = at + 1
      while not source:find("^[%]}]", at) do
        if open == "{" then
          local key
          key, at = source:match('^"(.-)":()', at)
          result[key] = value()
        else
          result[#result + 1] = value()
        end
        at = source:match("^,()", at) or at
      end
      at = at + 1
      return result
    end
    local number, after = source:match("^(-?[%d.eE+]+)()", at)
    if number then at = after return math.tointeger(number) or tonumber(number) end
    local string
    string, at = source:match('^"(.-)"()', at)
    return string
  end
  return value()
end

local encoded = encode(counts)
print(#encoded, encode(decode(encoded)) == encoded)
print(encode(decode('[1,2.5,[3,["x","y"]],-4e2]')))

local function permutations(items, count)
  if count == 0 then coroutine.yield(items) end
  for i = 1, count do
    items[i], items[count] = items[count], items[i]
    permutations(items, count - 1)
    items[i], items[count] = items[count], items[i]
  end
end
local seen = 0
local letters = { "a", "b", "c", "d", "e", "f", "g" }
for items in coroutine.wrap(function() permutations(letters, #letters) end) do
  seen = seen + 1
  if seen % 1000 == 0 then io.write(table.concat(items), " ") end
end
print(seen)

-- Strings and tables that become garbage, with a table that is kept and changed meanwhile.
local kept, sum = {}, 0
for i = 1, 6000 do
  kept[i % 500 + 1] = { name = "item " .. i, share = i / 7 }
  if i > 500 and i % 100 == 0 then
    sum = sum + #kept[i % 500 + 1].name + kept[(i * 7) % 500 + 1].share
  end
end
print(("%.6f %d %s"):format(sum, collectgarbage("count") > 0 and 1 or 0, math.maxinteger // 3))
print(pcall(error, { 1 }) == false, select("#", table.unpack({}, 1, 20)))
print(string.rep("-", 20), 2 ^ 0.5, 10 // 0.3)
