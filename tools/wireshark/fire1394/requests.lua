-- The requests that are outstanding, and which of them a response answers. A bus reset drops all; a request takes the place of one with the
-- same source, destination and label; at most 256 are kept, and a further one drops the oldest.

return function()
    local MOST = 256
    local ANSWERED_BY = { [0] = 2, [1] = 2, [4] = 6, [5] = 7, [9] = 11 } -- the tcode of the response, by that of the request

    local requests = {}
    local by_key, by_age, count, oldest, latest

    -- A bus reset, or the beginning of a log. Each request keeps the number of the packet that dropped it.
    function requests.drop_all(number)
        for _, request in pairs(by_key or {}) do
            request.dropped_in = number
        end
        by_key, by_age, count, oldest, latest = {}, {}, 0, 1, 0
    end

    local function key_of(from, to, label)
        return (from * 65536 + to) * 64 + label
    end

    local function remove(request)
        by_key[request.key], by_age[request.age] = nil, nil
        count = count - 1
    end

    local function drop_oldest()
        while not by_age[oldest] do
            oldest = oldest + 1
        end
        remove(by_age[oldest])
    end

    -- A request, which is outstanding from now on.
    function requests.add(request)
        request.key = key_of(request.src_id, request.dst_id, request.tlabel)
        local before = by_key[request.key]
        if before then
            remove(before)
        end
        latest, count = latest + 1, count + 1
        request.age = latest
        by_key[request.key], by_age[latest] = request, request
        if count > MOST then
            drop_oldest()
        end
    end

    -- The request that a response answers, which is outstanding no longer.
    function requests.take(response)
        local request = by_key[key_of(response.dst_id, response.src_id, response.tlabel)]
        if request and ANSWERED_BY[request.tcode] == response.tcode then
            remove(request)
            return request
        end
    end

    return requests
end
