-- What a log says beside the packets: events, outcomes, words that were shown, and its end.

return function(names, bytes, registers)
    local byte, format, doublet, quadlet = string.byte, string.format, bytes.doublet, bytes.quadlet
    local NOBODY, WITH_TAPE, REGISTERS = 255, 4, 0xFFFFF0000000

    local annotations = {}

    function annotations.read_event(body)
        local code, device = byte(body, 1, 2)
        if not names.event[code] or #body ~= (code == WITH_TAPE and 8 or 4) then
            return nil
        end
        local event = { code = code, code_name = names.event[code], device = device ~= NOBODY and device or nil }
        if code == WITH_TAPE then
            event.tape, event.system = doublet(body, 5), doublet(body, 7)
            return names.system[event.system] and event
        end
        return event
    end

    function annotations.event_words(event)
        return format("event %s%s: %s%s", event.code_name, event.device and format(" device %d", event.device) or "",
            names.saying[event.code], event.tape and format(" tape %d, system %s", event.tape, names.system[event.system]) or "")
    end

    function annotations.read_outcome(body)
        local code, device, slot = byte(body, 1, 3)
        if not names.outcome[code] or #body ~= 8 then
            return nil
        end
        return { code = code, code_name = names.outcome[code], device = device, slot = slot, value = quadlet(body, 5) }
    end

    local SHOWN = {
        decimal = function(value) return format("%d", value) end,
        hexadecimal = function(value) return format("%08x", value) end,
        rcode = function(value) return names.rcode[value] or format("rcode %d", value) end,
    }

    function annotations.outcome_words(outcome)
        local row = names.outcome_value[outcome.code]
        return format("outcome %s device %d slot %d%s", outcome.code_name, outcome.device, outcome.slot,
            row and format(", %s %s", row.label, SHOWN[row.shown](outcome.value)) or "")
    end

    function annotations.read_shown(body)
        if #body ~= 8 then
            return nil
        end
        return { device = byte(body, 1), offset = REGISTERS + doublet(body, 3), word = body:sub(5) }
    end

    function annotations.shown_words(shown)
        local place, register = registers.place(shown.offset)
        return format("shown device %d %s %08x%s", shown.device, place, quadlet(shown.word, 1), registers.says(register, shown.word))
    end

    function annotations.read_end(body)
        return body == "" and {} or nil
    end

    function annotations.end_words()
        return "end"
    end

    return annotations
end
