-- A dissector of FireWire (IEEE 1394) buses for Wireshark 4.0 and later, and for tshark: of the logs of `fire`, which to_pcapng.py makes
-- pcapng files of. docs/WIRESHARK.md says how it is used. Fields have the names and values of `fire json`, and the column Info has the
-- words of `fire explain`.
--
-- It is in parts, in the folder fire1394 beside this file.

local ENTRIES, DAMAGE = wtap.USER13, wtap.USER14 -- the link types
local ANSWER_IN_TIME = 800 -- cycles: SPLIT_TIMEOUT as it is after a bus reset

local folder = debug.getinfo(1, "S").source:match("^@?(.*[/\\])") or ""

local function part(name, ...)
    local made = dofile(folder .. "fire1394/" .. name .. ".lua")
    return type(made) == "function" and made(...) or made
end

local names = part("names")
local bytes = part("bytes")
local fields = part("fields", names)
local registers = part("registers", names, bytes)
local frames = part("frames", names, bytes)
local packets = part("packets", names, bytes, registers, frames)
local resets = part("resets", names, bytes)
local streams = part("streams", names, bytes)
local annotations = part("annotations", names, bytes, registers)
local links = part("links", part("requests"), packets)
local trees = part("trees", names, bytes, fields, registers, frames, packets)
local cip = part("cip")

local protocol = Proto("ieee1394", "IEEE 1394")
protocol.fields, protocol.experts = fields.all, fields.notes
protocol.init = links.begin

-- How each kind of entry is read, told, and shown.
local KINDS = {
    { read = resets.read, words = resets.words, show = trees.reset },
    { read = packets.read, words = packets.words, show = trees.packet },
    { read = streams.read, words = streams.words, show = trees.stream },
    { read = annotations.read_event, words = annotations.event_words, show = trees.annotation },
    { read = annotations.read_outcome, words = annotations.outcome_words, show = trees.annotation },
    { read = annotations.read_shown, words = annotations.shown_words, show = trees.shown },
    { read = annotations.read_end, words = annotations.end_words, show = function() end },
}

-- The entry that a packet is, and what its body is; nothing if it is damaged. Its head has 12 bytes in version 1 of logs, and 16 in
-- version 2, which has the epoch there.
local function read(data)
    local head = #data >= 4 and #data - 4 * bytes.doublet(data, 3)
    local number, zero = data:byte(1, 2)
    local kind = (head == 12 or head == 16) and zero == 0 and KINDS[number]
    local what = kind and kind.read(data:sub(head + 1))
    if not what then
        return nil
    end
    return {
        number = number, kind = kind, head = head, is_reset = number == 1,
        high = bytes.quadlet(data, head - 7), low = bytes.quadlet(data, head - 3),
    }, what
end

local function show_columns(columns, entry, what, words)
    columns.protocol, columns.info = "IEEE 1394", words
    if what.form then
        columns.src, columns.dst = packets.node(what.src_id), packets.node(what.dst_id)
    elseif what.sid then
        columns.src, columns.dst = ("node %d"):format(what.sid), ("channel %d"):format(what.channel)
    elseif what.device then
        columns.src = ("device %d"):format(what.device)
    end
end

-- What became of a request, as far as it was followed.
local function show_request(item, request)
    if request.response then
        item:add(fields.response_in, request.response):set_generated()
        item:add(fields.response_cycles, UInt64.new(request.cycles)):set_generated()
    end
    if request.dropped_in then
        item:add_proto_expert_info(fields.dropped)
    elseif not packets.is_to_all(request) and links.waited(request) > ANSWER_IN_TIME then
        item:add_proto_expert_info(fields.no_answer)
    end
end

local function show_response(item, packet, request)
    if request then
        item:add(fields.request_in, request.number):set_generated()
        item:add(fields.response_cycles, UInt64.new(request.cycles)):set_generated()
    end
    if packet.rcode ~= 0 then
        item:add_proto_expert_info(fields.not_complete)
    elseif packets.was_swapped(packet, request) == false then
        item:add_proto_expert_info(fields.not_swapped)
    end
end

local function show_tree(item, tvb, entry, what, asked)
    if entry.head == 16 and not entry.is_reset then
        item:add(fields.epoch, tvb(4, 4))
    end
    item:add(fields.cycle, tvb(entry.head - 8, 8))
    item:add(fields.kind, tvb(0, 1))
    item:add(fields.kind_name, tvb(0, 1), names.kind[entry.number]):set_hidden()
    local function range(at, length)
        return length and tvb(entry.head + at, length) or tvb(entry.head + at)
    end
    entry.kind.show(item, range, what, asked)
end

-- Bytes that are no entry, or the end of a log that lacks its own.
local function show_damage(tvb, pinfo, tree)
    local words = tvb:len() == 0 and "no end of the log" or ("damaged: %d bytes that are no entry"):format(tvb:len())
    pinfo.cols.protocol, pinfo.cols.info = "IEEE 1394", words
    tree:add(protocol, tvb(), "IEEE 1394, " .. words):add_proto_expert_info(fields.damaged)
    return tvb:len()
end

local own -- the dissector, once it is known by its name

function protocol.dissector(tvb, pinfo, tree)
    local entry, what = read(tvb:raw())
    if not entry then
        return show_damage(tvb, pinfo, tree)
    end
    if not pinfo.visited then
        links.follow(pinfo.number, entry, what)
    end
    local asked = what.form and links.of(pinfo.number, entry, what) or nil
    local words = entry.kind.words(what, asked)
    own = own or Dissector.get("ieee1394")
    local is_wanted = tree:referenced(own)
    local item = is_wanted and tree:add(protocol, tvb(), "IEEE 1394, " .. words) or tree
    if is_wanted then
        show_tree(item, tvb, entry, what, asked)
    end
    if what.form and what.form.is_response then
        show_response(item, what, asked)
    elseif what.form and what.form.is_request then
        show_request(item, asked)
    elseif what.sid and is_wanted then
        cip.show(tvb, entry.head, pinfo, tree)
    end
    show_columns(pinfo.cols, entry, what, words)
    return tvb:len()
end

local damage = Proto("ieee1394.damage", "IEEE 1394, damaged")
damage.dissector = show_damage

DissectorTable.get("wtap_encap"):add(ENTRIES, protocol)
DissectorTable.get("wtap_encap"):add(DAMAGE, damage)
