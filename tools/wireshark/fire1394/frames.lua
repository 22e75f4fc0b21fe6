-- AV/C frames: the bytes that are written to FCP_COMMAND and FCP_RESPONSE, in words.

return function(names, bytes)
    local byte, format, hexadecimal, blank_hexadecimal = string.byte, string.format, bytes.hexadecimal, bytes.blank_hexadecimal
    local UNIT, TAPE, EXTENDED_TYPE, EXTENDED_ID = 0xFF, 4, 0x1E, 5

    local frames = {}

    -- The rows of operands that are told otherwise than by a word of the first one: how many bytes they need and take, what the first
    -- one must be, and which bytes are told after which words.
    local TAPE_ROWS = { [0x51] = { takes = 5, first = 0x71, tells = { { "", 5 }, { ":", 4 }, { ":", 3 }, { ":", 2 } } } }
    local ROWS = {
        [0x00] = { takes = 3, tells = { { "company ", 1 }, { "", 2 }, { "", 3 } } },
        [0x02] = { takes = 3, first = 0, tells = { { "inputs ", 2 }, { " outputs ", 3 } } },
        [0x30] = { takes = 5, tells = { { "type ", 2 }, { " company ", 3 }, { "", 4 }, { "", 5 } } },
        [0x31] = { takes = 1, tells = { { "page ", 1 } } },
    }

    local function told(row, operands)
        local text = " "
        for _, part in ipairs(row.tells) do
            text = format("%s%s%02x", text, part[1], byte(operands, part[2]))
        end
        return text .. blank_hexadecimal(operands:sub(row.takes + 1))
    end

    local function operands_text(row, words, operands)
        local first = byte(operands, 1)
        if row and #operands >= row.takes and (row.first or first) == first then
            return told(row, operands)
        end
        local word = words and words[first]
        return word and " " .. word .. blank_hexadecimal(operands:sub(2)) or blank_hexadecimal(operands)
    end

    local function named(name, other, number)
        return name or format("%s %d", other, number)
    end

    local function subunit_text(address)
        if address == UNIT then
            return "unit"
        end
        local kind = math.floor(address / 8)
        return format("%s subunit %d", named(names.subunits[kind], "type", kind), address % 8)
    end

    local function is_extended(address)
        return address ~= UNIT and (math.floor(address / 8) == EXTENDED_TYPE or address % 8 == EXTENDED_ID)
    end

    -- A frame with its parts, which are fewer if its address goes on; nothing if it is no AV/C frame.
    function frames.read(data)
        local ctype, address, opcode = byte(data, 1, 3)
        if not opcode or ctype > 15 then
            return nil
        end
        local frame = { ctype = ctype, ctype_name = named(names.ctypes[ctype], "code", ctype) }
        if is_extended(address) then
            return frame
        end
        local is_tape = math.floor(address / 8) == TAPE and names.tape_opcodes[opcode] ~= nil
        frame.subunit, frame.opcode, frame.operands = subunit_text(address), opcode, data:sub(4)
        frame.opcode_name = (is_tape and names.tape_opcodes or names.opcodes)[opcode]
        frame.rows, frame.operand_words = is_tape and TAPE_ROWS or ROWS, is_tape and names.tape_operands or names.operands
        return frame
    end

    -- A frame in words, with a space before them.
    function frames.words(data)
        local frame = frames.read(data)
        if not frame then
            return " not AV/C" .. blank_hexadecimal(data)
        elseif not frame.opcode then
            return format(" AV/C %s extended address%s", frame.ctype_name, blank_hexadecimal(data:sub(2)))
        end
        local opcode = frame.opcode
        local name = frame.opcode_name or format("opcode %02x", opcode)
        local operands = operands_text(frame.rows[opcode], frame.operand_words[opcode], frame.operands)
        return format(" AV/C %s %s %s%s", frame.ctype_name, frame.subunit, name, operands)
    end

    return frames
end
