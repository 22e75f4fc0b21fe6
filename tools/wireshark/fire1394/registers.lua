-- Registers: their names, and what their words and swaps of these say.

return function(names, bytes)
    local field, quadlet, format = bytes.field, bytes.quadlet, string.format
    local ALL_CHANNELS = 0xFFFFFFFF
    local REGISTERS = 0xFFFFF0000000 -- where the registers of a node begin

    local registers = {}

    -- The name of the register at each offset, and the text of its place; one that has a name alone comes before a row of registers.
    local name_at, place_at = {}, {}
    for _, row in ipairs(names.registers) do
        for index = 0, row.count - 1 do
            local offset = REGISTERS + row.first + 4 * index
            if not (row.is_indexed and name_at[offset]) then
                name_at[offset] = row.name
                place_at[offset] = row.is_indexed and format("%s[%d]", row.name, index) or row.name
            end
        end
    end

    -- The text of the place at an offset, and the name of the register there, if it has one.
    function registers.place(offset)
        return place_at[offset] or format("offset %04x%08x", math.floor(offset / 2 ^ 32), offset % 2 ^ 32), name_at[offset]
    end

    -- How the value of a field is shown.
    local SHOWN = {
        decimal = function(value) return format("%d", value) end,
        company = function(value) return format("%06x", value) end,
        rate = function(value) return names.rate[value] end,
        node = function(value) return value == 63 and "none" or format("node %d", value) end,
    }

    -- The numbers of the channels whose bit is 1 in a set, a space before each.
    local function channels(first, set)
        local text = {}
        for bit = 0, 31 do
            if field(set, bit, bit) == 1 then
                text[#text + 1] = format(" %d", first + bit)
            end
        end
        return table.concat(text)
    end

    -- The channels that are in one set, and not in another.
    local function difference(set, other)
        local found = 0
        for bit = 0, 31 do
            if field(set, bit, bit) > field(other, bit, bit) then
                found = found + 2 ^ (31 - bit)
            end
        end
        return found
    end

    -- What a word of a register says, which is four bytes.
    local said = bytes.kept(function(name, data)
        local word, first = quadlet(data, 1), names.first_channel[name]
        if first then
            local taken = channels(first, ALL_CHANNELS - word)
            return ", channels taken" .. (taken == "" and " none" or taken)
        end
        local text = ""
        for _, row in ipairs(names.fields[name]) do
            text = format("%s, %s %s", text, row.label, SHOWN[row.shown](field(word, row.first, row.last)))
        end
        return text
    end)

    local function set_change(first, old, new)
        local taken, given = difference(old, new), difference(new, old)
        return (taken == 0 and "" or ", takes channel" .. channels(first, taken))
            .. (given == 0 and "" or ", gives back channel" .. channels(first, given))
    end

    local function field_change(row, from, to)
        if from == to then
            return ""
        elseif row.noun then
            local count = math.abs(from - to)
            return format(", %s %d %s%s", from > to and row.less or row.more, count, row.noun, count == 1 and "" or "s")
        end
        return format(", %s %s to %s", row.label, SHOWN[row.shown](from), SHOWN[row.shown](to))
    end

    -- What a swap of one word of a register for another does, which are eight bytes.
    local changed = bytes.kept(function(name, data)
        local old, new, first = quadlet(data, 1), quadlet(data, 5), names.first_channel[name]
        if first then
            return set_change(first, old, new)
        end
        local text = ""
        for _, row in ipairs(names.fields[name]) do
            text = text .. field_change(row, field(old, row.first, row.last), field(new, row.first, row.last))
        end
        return text
    end)

    local function is_told(name)
        return names.fields[name] or names.first_channel[name]
    end

    function registers.says(name, data)
        return is_told(name) and said(name, data) or ""
    end

    function registers.changes(name, data)
        return is_told(name) and changed(name, data) or ""
    end

    return registers
end
