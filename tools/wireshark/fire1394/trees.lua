-- What the tree of a packet shows of each kind of entry. `range(at, length)` gives the bytes of the entry's body from a place on, counted
-- from 0.

return function(names, bytes, fields, registers, frames, packets)
    local floor, field = math.floor, bytes.field
    local trees = {}

    -- A code and its name, which is not shown since the code's own line has it.
    local function show_code(tree, key, range, value, name)
        tree:add(fields[key], range, value)
        if name then
            tree:add(fields.name_of[key], range, name):set_hidden()
        end
    end

    -- Each of these keys that a table has.
    local function show_keys(tree, range, values, prefix, keys)
        for _, key in ipairs(keys) do
            if values[key] ~= nil then
                tree:add(fields[prefix .. key], range, values[key])
            end
        end
    end

    -- A word of a register, field by field.
    local function show_word(tree, range, register, data)
        local first, word = names.first_channel[register], bytes.quadlet(data, 1)
        for bit = 0, first and 31 or -1 do
            if field(word, bit, bit) == 0 then
                tree:add(fields.channels_taken, range, first + bit)
            end
        end
        for at, row in ipairs(names.fields[register] or {}) do
            tree:add(fields.of_register[register][at], range, field(word, row.first, row.last))
        end
    end

    local NODE_KEYS = { "node", "device", "output_plugs", "input_plugs" }
    local SELF_ID_KEYS = { "phy_id", "extended", "link_active", "gap_count", "delay", "contender", "power_class", "initiated_reset",
        "sequence", "more_packets" }

    function trees.reset(tree, range, reset)
        tree:add(fields.epoch, range(0, 4))
        tree:add(fields.root, range(4, 1))
        if reset.manager then
            tree:add(fields.manager, range(5, 1))
        end
        tree:add(fields.initiator, range(6, 1))
        for _, node in ipairs(reset.nodes) do
            local part = range(node.at, 4)
            local branch = tree:add(part, ("Node %d"):format(node.node))
            show_keys(branch, part, node, "nodes.", NODE_KEYS)
            show_code(branch, "nodes.device_kind", part, node.device_kind, names.device_kind[node.device_kind])
        end
        for _, self_id in ipairs(reset.self_ids) do
            trees.self_id(tree, range(self_id.at, 4), self_id)
        end
    end

    function trees.self_id(tree, range, self_id)
        local branch = tree:add(range, ("Self-ID packet of node %d"):format(self_id.phy_id))
        show_keys(branch, range, self_id, "self_ids.", SELF_ID_KEYS)
        if self_id.scode then
            show_code(branch, "self_ids.scode", range, self_id.scode, names.scode[self_id.scode])
        end
        for _, state in ipairs(self_id.port_status) do
            show_code(branch, "self_ids.port_status", range, state, names.port_status[state])
        end
    end

    local function show_swap(tree, range, asked)
        for at, title in ipairs({ "Swap from", "Swap to" }) do
            local part, data = range(12 + 4 * at, 4), asked.swap:sub(4 * at - 3, 4 * at)
            local branch = tree:add(part, ("%s: %s"):format(title, bytes.hexadecimal(data)))
            show_word(branch, part, asked.register, data)
        end
    end

    -- An AV/C frame that is written in so many bytes from a place on.
    local function show_frame(tree, range, at, data)
        local frame = frames.read(data)
        if not frame then
            return
        end
        local branch = tree:add(range(at, #data), "AV/C" .. frames.words(data):sub(6))
        show_code(branch, "avc.ctype", range(at, 1), frame.ctype, frame.ctype_name)
        if frame.opcode then
            branch:add(fields["avc.subunit"], range(at + 1, 1), frame.subunit)
            show_code(branch, "avc.opcode", range(at + 2, 1), frame.opcode, frame.opcode_name)
            if frame.operands ~= "" then
                branch:add(fields["avc.operands"], range(at + 3, #frame.operands))
            end
        end
    end

    local function show_head(tree, range, packet)
        tree:add(fields.dst_id, range(0, 2))
        tree:add(fields.tlabel, range(2, 1), packet.tlabel)
        show_code(tree, "retry", range(2, 1), packet.retry, names.retry[packet.retry])
        show_code(tree, "tcode", range(3, 1), packet.tcode, names.tcode[packet.tcode])
        tree:add(fields.priority, range(3, 1), packet.priority)
        tree:add(fields.src_id, range(4, 2))
        if packet.rcode then
            show_code(tree, "rcode", range(6, 1), packet.rcode, names.rcode[packet.rcode])
        else
            tree:add(fields.offset, range(6, 6))
        end
    end

    -- The length and the function, and what the packet carries.
    local function show_data(tree, range, packet)
        if packet.data_length then
            tree:add(fields.data_length, range(12, 2))
        end
        if packet.extended_tcode then
            show_code(tree, "extended_tcode", range(14, 2), packet.extended_tcode, names.extended_tcode[packet.extended_tcode])
        end
        local at = packet.form.has_block and 16 or 12
        if packet.data ~= "" then
            return tree:add(fields.data, range(at, #packet.data)), at
        end
    end

    -- `asked` is the request itself, or that which a response answers.
    function trees.packet(tree, range, packet, asked)
        show_head(tree, range, packet)
        if asked then
            tree:add(fields.register, asked.place)
        end
        local item, at = show_data(tree, range, packet)
        local frame = asked and packets.frame(packet, asked.register)
        if frame then
            show_frame(tree, range, at, frame)
        elseif asked and asked.swap and packet.form.is_request then
            show_swap(tree, range, asked)
        elseif asked and item and #packet.data == 4 and (packet.rcode or 0) == 0 then
            show_word(item, range(at, 4), asked.register, packet.data)
        end
        local was_swapped = packets.was_swapped(packet, asked)
        if packet.form.is_response and was_swapped ~= nil then
            tree:add(fields.swap_made, range(at, 4), was_swapped)
        end
    end

    local STREAM_KEYS = { "data_length", "tag", "channel", "sy", "sid", "dbs", "fn", "qpc", "sph", "dbc", "fmt", "fdf", "format_name" }

    function trees.stream(tree, range, stream)
        show_code(tree, "tcode", range(3, 1), stream.tcode, names.tcode[stream.tcode])
        show_keys(tree, range(0, 12), stream, "", STREAM_KEYS)
        if stream.data ~= "" then
            tree:add(fields.data, range(12, #stream.data))
        end
    end

    local ANNOTATION_KEYS = { "code", "code_name", "device", "slot", "tape", "value" }

    function trees.annotation(tree, range, annotation)
        show_keys(tree, range(0), annotation, "", ANNOTATION_KEYS)
        if annotation.system then
            show_code(tree, "system", range(6, 2), annotation.system, names.system[annotation.system])
        end
    end

    function trees.shown(tree, range, shown)
        local place, register = registers.place(shown.offset)
        tree:add(fields.device, range(0, 1))
        tree:add(fields.offset, range(2, 2), UInt64(shown.offset % 2 ^ 32, floor(shown.offset / 2 ^ 32)))
        tree:add(fields.register, range(2, 2), place)
        show_word(tree:add(fields.word, range(4, 4)), range(4, 4), register, shown.word)
    end

    return trees
end
