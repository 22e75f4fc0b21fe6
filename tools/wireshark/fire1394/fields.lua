-- The fields of the dissector, by the keys that `fire json` has, and its expert notes.

return function(names)
    local PREFIX = "ieee1394."
    local fields = { all = {}, of_register = {}, name_of = {} }

    local function add(key, make, label, ...)
        local field = make(PREFIX .. key, label, ...)
        fields[key] = field
        fields.all[#fields.all + 1] = field
        return field
    end

    local function decimal(key, label, make, values)
        add(key, make or ProtoField.uint8, label, base.DEC, values)
    end

    local function name(key, label)
        fields.name_of[key] = add(key .. "_name", ProtoField.string, label .. " by name")
    end

    -- A code, and its name.
    local function code(key, label, make)
        decimal(key, label, make, names[key:match("[^.]+$")])
        name(key, label)
    end

    local function hexadecimal(key, label, make)
        add(key, make, label, base.HEX)
    end

    local function flag(key, label)
        add(key, ProtoField.bool, label)
    end

    -- Of all entries.
    decimal("cycle", "Cycle", ProtoField.uint64)
    code("kind", "Kind of entry")
    decimal("epoch", "Epoch", ProtoField.uint32)

    -- Of bus resets.
    decimal("root", "Root")
    decimal("manager", "Resource manager")
    decimal("initiator", "Initiator")
    decimal("nodes.node", "Node")
    decimal("nodes.device", "Device")
    decimal("nodes.output_plugs", "Output plugs")
    decimal("nodes.input_plugs", "Input plugs")
    code("nodes.device_kind", "Kind of device")
    decimal("self_ids.phy_id", "Node")
    flag("self_ids.extended", "Extended packet")
    flag("self_ids.link_active", "Link active")
    decimal("self_ids.gap_count", "Gap count")
    code("self_ids.scode", "Speed")
    decimal("self_ids.delay", "Delay")
    flag("self_ids.contender", "Contender")
    decimal("self_ids.power_class", "Power class")
    flag("self_ids.initiated_reset", "Initiated the bus reset")
    flag("self_ids.more_packets", "More packets")
    decimal("self_ids.sequence", "Number of the extended packet")
    code("self_ids.port_status", "Port")

    -- Of asynchronous and isochronous packets.
    code("tcode", "Transaction code")
    hexadecimal("dst_id", "Destination", ProtoField.uint16)
    decimal("tlabel", "Label")
    code("retry", "Retry code")
    decimal("priority", "Priority")
    hexadecimal("src_id", "Source", ProtoField.uint16)
    hexadecimal("offset", "Offset", ProtoField.uint64)
    code("rcode", "Response code")
    decimal("data_length", "Length of the data", ProtoField.uint16)
    code("extended_tcode", "Lock function", ProtoField.uint16)
    add("data", ProtoField.bytes, "Data")
    decimal("tag", "Tag")
    decimal("channel", "Channel")
    decimal("sy", "sy")
    decimal("sid", "SID")
    decimal("dbs", "DBS")
    decimal("fn", "FN")
    decimal("qpc", "QPC")
    decimal("sph", "SPH")
    decimal("dbc", "DBC")
    decimal("fmt", "FMT")
    hexadecimal("fdf", "FDF", ProtoField.uint24)
    add("format_name", ProtoField.string, "Format")

    -- Of events, outcomes and words that were shown.
    decimal("code", "Code")
    add("code_name", ProtoField.string, "Name")
    decimal("device", "Device")
    decimal("tape", "Tape", ProtoField.uint16)
    code("system", "System", ProtoField.uint16)
    decimal("slot", "Slot")
    hexadecimal("value", "Value", ProtoField.uint32)
    hexadecimal("word", "Word", ProtoField.uint32)

    -- What `json` does not have: what registers, words and frames say, and which request a response answers.
    add("register", ProtoField.string, "Register")
    decimal("channels_taken", "Channel that is taken")
    flag("swap_made", "Swap made")
    hexadecimal("avc.ctype", "Command type or response", ProtoField.uint8)
    name("avc.ctype", "Command type or response")
    add("avc.subunit", ProtoField.string, "Subunit")
    hexadecimal("avc.opcode", "Opcode", ProtoField.uint8)
    name("avc.opcode", "Opcode")
    add("avc.operands", ProtoField.bytes, "Operands")
    add("request_in", ProtoField.framenum, "Request in", base.NONE, frametype.REQUEST)
    add("response_in", ProtoField.framenum, "Response in", base.NONE, frametype.RESPONSE)
    decimal("response_cycles", "Cycles from the request to the response", ProtoField.uint64)

    -- The fields of the words of registers: ieee1394.opcr.point_to_point, ieee1394.bandwidth_available.units_left.
    for register, rows in pairs(names.fields) do
        fields.of_register[register] = {}
        for at, row in ipairs(rows) do
            local key = (register .. "." .. row.label):lower():gsub("[ -]", "_")
            local values = row.shown == "rate" and names.rate or nil
            local shown = row.shown == "company" and base.HEX or base.DEC
            fields.of_register[register][at] = add(key, ProtoField.uint32, row.label, shown, values)
        end
    end

    local function note(key, text, group, severity)
        fields[key] = ProtoExpert.new(PREFIX .. key, text, group, severity)
        return fields[key]
    end

    fields.notes = {
        note("not_complete", "The answer is not complete", expert.group.RESPONSE_CODE, expert.severity.WARN),
        note("not_swapped", "The swap was not made", expert.group.RESPONSE_CODE, expert.severity.NOTE),
        note("no_answer", "No answer in 800 cycles", expert.group.SEQUENCE, expert.severity.WARN),
        note("dropped", "A bus reset came before an answer", expert.group.SEQUENCE, expert.severity.NOTE),
        note("damaged", "The log is damaged here", expert.group.PROTOCOL, expert.severity.ERROR),
    }

    return fields
end
