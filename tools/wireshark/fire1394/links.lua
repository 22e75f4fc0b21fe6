-- Which request a response answers, and what became of each request. Wireshark gives the packets in order once, and then any of them again.

return function(requests, packets)
    local links = {}

    -- The request of each packet that is one, or answers one, by the packet's number; and the time of the latest packet.
    local by_number, latest

    function links.begin()
        by_number, latest = {}, { high = 0, low = 0 }
        requests.drop_all()
    end

    -- How many cycles there are from one entry to another.
    local function cycles(from, to)
        return (to.high - from.high) * 2 ^ 32 + to.low - from.low
    end

    local function follow_packet(number, entry, packet)
        if packet.form.is_request then
            local request = packets.asked(packet, number, entry)
            requests.add(request)
            by_number[number] = request
        elseif packet.form.is_response then
            local request = requests.take(packet)
            if request then
                request.response, request.cycles = number, math.max(cycles(request, entry), 0)
                by_number[number] = request
            end
        end
    end

    -- Goes on by an entry that was not seen before. `what` is its packet, if it has one.
    function links.follow(number, entry, what)
        latest = entry
        if entry.is_reset then
            requests.drop_all(number)
        elseif what and what.form then
            follow_packet(number, entry, what)
        end
    end

    -- The request that a packet is, or that it answers; of another packet with an offset, what it would be as one.
    function links.of(number, entry, packet)
        return by_number[number] or packet.offset and packets.asked(packet, number, entry)
    end

    -- How many cycles a request waited for its answer, or waits.
    function links.waited(request)
        return request.cycles or cycles(request, latest)
    end

    return links
end
