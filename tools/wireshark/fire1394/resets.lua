-- Bus resets: their nodes, their self-ID packets, and what they say in words.

return function(names, bytes)
    local byte, format, field, quadlet = string.byte, string.format, bytes.field, bytes.quadlet
    local NOBODY, HEAD, MOST_NODES = 255, 8, 63
    local FIRST_PORTS, PORTS_OF_EXTENDED = 3, 8

    local resets = {}

    local function read_nodes(body, count)
        local nodes = {}
        for node = 0, count - 1 do
            local device, outputs, inputs, kind = byte(body, HEAD + 4 * node + 1, HEAD + 4 * node + 4)
            if not names.device_kind[kind] then
                return nil
            end
            nodes[#nodes + 1] = {
                node = node, device = device, output_plugs = outputs, input_plugs = inputs, device_kind = kind, at = HEAD + 4 * node,
            }
        end
        return nodes
    end

    -- The states of the ports that are told in these bits and those after them, two bits each.
    local function ports(word, first_bit, count)
        local states = {}
        for port = 0, count - 1 do
            states[#states + 1] = field(word, first_bit + 2 * port, first_bit + 2 * port + 1)
        end
        return states
    end

    local function read_first(word)
        return {
            link_active = field(word, 9, 9) == 1, gap_count = field(word, 10, 15), scode = field(word, 16, 17), delay = field(word, 18, 19),
            contender = field(word, 20, 20) == 1, power_class = field(word, 21, 23), initiated_reset = field(word, 30, 30) == 1,
            port_status = ports(word, 24, FIRST_PORTS), first_port = 0,
        }
    end

    local function read_extended(word)
        local sequence = field(word, 9, 11)
        return {
            sequence = sequence, port_status = ports(word, 14, PORTS_OF_EXTENDED), first_port = FIRST_PORTS + PORTS_OF_EXTENDED * sequence,
        }
    end

    local function read_self_id(word)
        local extended = field(word, 8, 8) == 1
        local self_id = extended and read_extended(word) or read_first(word)
        self_id.phy_id, self_id.extended = field(word, 2, 7), extended
        self_id.more_packets = field(word, 31, 31) == 1
        return self_id
    end

    -- Each self-ID packet stands before its inverse.
    local function read_self_ids(body, from, count)
        local self_ids = {}
        for at = from, #body - 8, 8 do
            local word = quadlet(body, at + 1)
            local self_id = read_self_id(word)
            if field(word, 0, 1) ~= 2 or self_id.phy_id >= count or word + quadlet(body, at + 5) ~= 0xFFFFFFFF then
                return nil
            end
            self_id.at = at
            self_ids[#self_ids + 1] = self_id
        end
        return self_ids
    end

    -- The bus reset with this body; nothing if the body is none.
    function resets.read(body)
        local count = byte(body, HEAD)
        if not count or count < 1 or count > MOST_NODES or #body < HEAD + 4 * count or (#body - HEAD - 4 * count) % 8 ~= 0 then
            return nil
        end
        local root, manager, initiator = byte(body, 5, 7)
        local reset = {
            epoch = quadlet(body, 1), root = root, manager = manager ~= NOBODY and manager or nil, initiator = initiator,
            nodes = read_nodes(body, count), self_ids = read_self_ids(body, HEAD + 4 * count, count),
        }
        return reset.nodes and reset.self_ids and reset
    end

    local function node_words(self_id, row)
        return format("; node %d: device %d %s, plugs %d out %d in, %s, %s%s, gap %d", self_id.phy_id, row.device,
            names.device_kind[row.device_kind], row.output_plugs, row.input_plugs, names.scode[self_id.scode],
            self_id.link_active and "link" or "no link", self_id.contender and ", contender" or "", self_id.gap_count)
    end

    -- A bus reset in words.
    function resets.words(reset)
        local text = { format("bus reset epoch %d, root node %d, resource manager %s, initiator node %d", reset.epoch, reset.root,
            reset.manager and format("node %d", reset.manager) or "none", reset.initiator) }
        for _, self_id in ipairs(reset.self_ids) do
            if not self_id.extended then
                text[#text + 1] = node_words(self_id, reset.nodes[self_id.phy_id + 1])
            end
            for at, state in ipairs(self_id.port_status) do
                if state ~= 0 then
                    text[#text + 1] = format(", port %d %s", self_id.first_port + at - 1, names.port_status[state])
                end
            end
        end
        return table.concat(text)
    end

    return resets
end
