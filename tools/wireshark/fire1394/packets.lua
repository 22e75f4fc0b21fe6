-- Asynchronous packets: their parts, by the keys that `fire json` has, and what they say in words.

return function(names, bytes, registers, frames)
    local byte, floor, format = string.byte, math.floor, string.format
    local doublet, quadlet = bytes.doublet, bytes.quadlet
    local blank_hexadecimal = bytes.blank_hexadecimal
    local COMPARE_SWAP, COMPLETE = 2, 0
    local BROADCAST, LOCAL_BUS, NODES = 0xFFFF, 0xFFC0, 63

    local packets = {}

    -- What packets of a transaction code have: the bytes of their header, and whether they are a request or a response, have a quadlet, the
    -- length of a block, or a block.
    packets.FORMS = {
        [0] = { header = 16, is_request = true, has_quadlet = true },
        [1] = { header = 16, is_request = true, has_length = true, has_block = true },
        [2] = { header = 12, is_response = true },
        [4] = { header = 12, is_request = true },
        [5] = { header = 16, is_request = true, has_length = true },
        [6] = { header = 16, is_response = true, has_quadlet = true },
        [7] = { header = 16, is_response = true, has_length = true, has_block = true },
        [8] = { header = 16, has_quadlet = true },
        [9] = { header = 16, is_request = true, has_length = true, has_block = true, is_lock = true },
        [11] = { header = 16, is_response = true, has_length = true, has_block = true, is_lock = true },
    }

    -- The bytes of a packet after its header fields, if they are as many as its form and its length say.
    local function data_of(form, length, body)
        if #body ~= (form.has_block and form.header + 4 * floor((length + 3) / 4) or form.header) then
            return nil
        elseif form.has_block then
            return body:sub(17, 16 + length)
        end
        return form.has_quadlet and body:sub(13) or ""
    end

    -- The packet with this body; nothing if the body is none. (The table is made at once, with all that it has: that takes half the time.)
    function packets.read(body)
        local form = #body > 8 and packets.FORMS[floor(byte(body, 4) / 16)]
        if not form or #body < form.header then
            return nil
        end
        local first, second, third, fourth, source_high, source_low, seventh = byte(body, 1, 7)
        local length = form.has_length and doublet(body, 13) or nil
        local data, extended_tcode = data_of(form, length, body), form.is_lock and doublet(body, 15) or nil
        if not data or form.is_lock and not names.extended_tcode[extended_tcode] then
            return nil
        end
        return {
            form = form, tcode = floor(fourth / 16), dst_id = first * 256 + second, src_id = source_high * 256 + source_low,
            tlabel = floor(third / 4), retry = third % 4, priority = fourth % 16,
            rcode = form.is_response and floor(seventh / 16) or nil,
            offset = not form.is_response and doublet(body, 7) * 2 ^ 32 + quadlet(body, 9) or nil,
            data_length = length, extended_tcode = extended_tcode, data = data,
        }
    end

    local function node_text(id)
        if id == BROADCAST then
            return "broadcast"
        elseif id >= LOCAL_BUS and id < LOCAL_BUS + NODES then
            return format("node %d", id - LOCAL_BUS)
        end
        return format("node_ID %04x", id)
    end

    -- A node by its number, if it is on this bus.
    local node_texts = {}
    function packets.node(id)
        local text = node_texts[id] or node_text(id)
        node_texts[id] = text
        return text
    end

    -- Whether no node answers the request, since it is to all.
    function packets.is_to_all(packet)
        return packet.dst_id % 64 == NODES
    end

    -- What a request has that its response is told by: where it is to, and of a compare_swap of quadlets both words; and the number and the
    -- time of its packet.
    function packets.asked(packet, number, entry)
        local place, register = registers.place(packet.offset)
        local is_swap = packet.extended_tcode == COMPARE_SWAP and #packet.data == 8
        return {
            tcode = packet.tcode, src_id = packet.src_id, dst_id = packet.dst_id, tlabel = packet.tlabel,
            place = place, register = register, swap = is_swap and packet.data or nil,
            number = number, high = entry.high, low = entry.low,
        }
    end

    -- Whether a compare_swap of quadlets was made, if it is the response to one.
    function packets.was_swapped(packet, asked)
        local is_answer = asked and asked.swap and packet.rcode == COMPLETE and packet.extended_tcode == COMPARE_SWAP
        if is_answer and #packet.data == 4 then
            return packet.data == asked.swap:sub(1, 4)
        end
    end

    -- The bytes of the AV/C frame that a request writes.
    function packets.frame(packet, register)
        local is_frame = register == "FCP_COMMAND" or register == "FCP_RESPONSE"
        return is_frame and (packet.tcode == 0 or packet.tcode == 1) and packet.data or nil
    end

    local function word(register, data)
        return format(" %08x%s", quadlet(data, 1), registers.says(register, data))
    end

    local function block(data)
        return format(" data_length %d%s", #data, blank_hexadecimal(data))
    end

    local function quadlets(data)
        local text = ""
        for at = 1, #data - 3, 4 do
            text = format("%s %08x", text, quadlet(data, at))
        end
        return text
    end

    -- What a request says after the name of its packet; a cycle start is told as one.
    local function request_words(packet, asked)
        local place, register, data = asked.place, asked.register, packet.data
        local frame = packets.frame(packet, register)
        if frame then
            return " " .. place .. frames.words(frame)
        elseif packet.form.has_quadlet then
            return " " .. place .. word(register, data)
        elseif asked.swap then
            return format(" compare_swap %s %08x to %08x%s", place, quadlet(data, 1), quadlet(data, 5), registers.changes(register, data))
        elseif packet.form.is_lock then
            return format(" %s %s%s", names.extended_tcode[packet.extended_tcode], place, quadlets(data))
        elseif packet.form.has_block then
            return " " .. place .. block(data)
        end
        return packet.data_length and format(" %s data_length %d", place, packet.data_length) or " " .. place
    end

    -- What a complete response says at its end.
    local function answer(packet, asked)
        local was_swapped = packets.was_swapped(packet, asked)
        if was_swapped then
            return format(" %08x, swap made%s", quadlet(packet.data, 1), registers.changes(asked.register, asked.swap))
        elseif was_swapped == false then
            return format(" %08x, no swap%s", quadlet(packet.data, 1), registers.says(asked.register, packet.data))
        elseif packet.form.is_lock then
            return quadlets(packet.data)
        elseif packet.form.has_quadlet then
            return word(asked and asked.register, packet.data)
        end
        return packet.form.has_block and block(packet.data) or ""
    end

    local function response_words(packet, asked)
        return format(" %s%s%s%s%s", names.rcode[packet.rcode] or format("rcode %d", packet.rcode),
            packet.form.is_lock and " " .. names.extended_tcode[packet.extended_tcode] or "",
            asked and " " .. asked.place or "",
            packet.rcode == COMPLETE and answer(packet, asked) or "",
            asked and "" or ", no request stands")
    end

    -- A packet in words; `asked` is the request itself, or that which a response answers, if there is one.
    function packets.words(packet, asked)
        local says = packet.form.is_response and response_words or request_words
        return format("%s to %s label %d %s%s", packets.node(packet.src_id), packets.node(packet.dst_id), packet.tlabel,
            names.tcode[packet.tcode], says(packet, asked))
    end

    return packets
end
