-- Asks by wrk, for bench/clients: wrk .. -s asking.lua URL -- TOKEN BODY PAUSE
--
-- A POST of the body, and two GETs of the order `o1`, in turn, with so many seconds between. At the end it prints a line:
-- how many requests got a reply, the longest in seconds, and wrk's own counts of errors.

local pause, number, post, get

function init(words)
    local token, body = words[1], words[2]
    pause = 1000 * tonumber(words[3])
    number = 0
    local headers = { ["Authorization"] = "Bearer " .. token }
    post = wrk.format("POST", "/v1/order", headers, body)
    get = wrk.format("GET", "/v1/order?name=o1", headers)
end

function delay()
    return number > 0 and pause or 0
end

function request()
    number = number + 1
    return number % 3 == 1 and post or get
end

function done(summary, latency)
    local errors = summary.errors
    local counts = { summary.requests, latency.max / 1e6, errors.status, errors.connect, errors.read, errors.write, errors.timeout }
    print("done " .. table.concat(counts, " "))
end
