-- What scripts do: words counted and sorted, objects with methods, records built and joined, a sieve, numbers with
-- fractions, closures, coroutines. The global `rounds` says how often.
local words = {
    "the", "tag", "of", "a", "pointer", "memory", "granule", "is", "compared", "heap", "chunk", "header", "free",
    "allocate", "tenant", "slice",
}

local state = 12345
local function random(limit)
    state = (state * 1103515245 + 12345) % 2147483648
    return state // 65536 % limit + 1
end

local function make_text(count)
    local parts = {}
    for i = 1, count do
        parts[i] = words[random(#words)] .. random(9)
    end
    return table.concat(parts, " ")
end

local function count_words(text)
    local counts, names = {}, {}
    for word in text:gmatch("%a+%d") do
        if not counts[word] then
            names[#names + 1] = word
        end
        counts[word] = (counts[word] or 0) + 1
    end
    table.sort(names, function(a, b)
        return counts[a] > counts[b] or counts[a] == counts[b] and a < b
    end)
    return names[1] .. "=" .. counts[names[1]] .. ";" .. #names
end

local Account = {}
Account.__index = Account

function Account.new(owner)
    return setmetatable({owner = owner, balance = 0, entries = {}}, Account)
end

function Account:add(amount)
    self.balance = self.balance + amount
    self.entries[#self.entries + 1] = {amount = amount, balance = self.balance}
end

local function keep_accounts(count)
    local accounts = {}
    for i = 1, 10 do
        accounts[i] = Account.new("owner " .. i)
    end
    for i = 1, count do
        accounts[random(10)]:add(i % 97 - 40)
    end
    local lines = {}
    for i, account in ipairs(accounts) do
        lines[i] = string.format("%-10s %6d %4d", account.owner, account.balance, #account.entries)
    end
    return table.concat(lines, "\n"):gsub("owner (%d+)", "o%1")
end

local function sieve(limit)
    local composite, primes = {}, 0
    for i = 2, limit do
        if not composite[i] then
            primes = primes + 1
            for j = i * i, limit, i do
                composite[j] = true
            end
        end
    end
    return primes
end

local function integrate(steps)
    local sum, width = 0.0, 1.0 / steps
    for i = 1, steps do
        local x = (i - 0.5) * width
        sum = sum + 4.0 / (1.0 + x * x)
    end
    return sum * width * 1000000 // 1 | 0
end

local function generate(limit)
    local sum = 0
    local numbers = coroutine.wrap(function()
        for i = 1, limit do
            coroutine.yield(i)
        end
    end)
    for i in numbers do
        sum = sum + i
    end
    return sum
end

local function fibonacci(n)
    return n < 2 and n or fibonacci(n - 1) + fibonacci(n - 2)
end

local report = {}
for round = 1, rounds do
    report[1] = count_words(make_text(400))
    report[2] = keep_accounts(600)
    report[3] = sieve(2000)
    report[4] = integrate(200)
    report[5] = generate(150)
    report[6] = fibonacci(14)
end
return table.concat(report, "\n")
