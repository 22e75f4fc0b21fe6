-- Isochronous packets: their header and CIP header, and what they say in words.

return function(names, bytes)
    local byte, floor, format, doublet = string.byte, math.floor, string.format, bytes.doublet
    local HEADERS = 12 -- bytes of the isochronous header and the CIP header
    local TCODE, CIP_TAG = 10, 1

    local streams = {}

    -- The isochronous packet with this body; nothing if the body is none.
    function streams.read(body)
        if #body < HEADERS or #body ~= 4 + doublet(body, 1) then
            return nil
        end
        local third, fourth, sid, dbs, parts, dbc, fmt, fdf = byte(body, 3, 10)
        if floor(fourth / 16) ~= TCODE or floor(third / 64) ~= CIP_TAG then
            return nil
        end
        return {
            data_length = #body - 4, tag = CIP_TAG, channel = third % 64, tcode = TCODE, sy = fourth % 16,
            sid = sid % 64, dbs = dbs, fn = floor(parts / 64), qpc = floor(parts / 8) % 8, sph = floor(parts / 4) % 2, dbc = dbc,
            fmt = fmt % 64, fdf = fdf * 65536 + doublet(body, 11), data = body:sub(HEADERS + 1),
            format_name = fmt % 64 == 0 and names.format[fdf] or nil,
        }
    end

    -- An isochronous packet in words.
    function streams.words(stream)
        local said = stream.format_name and format("%s SYT %04x", stream.format_name, stream.fdf % 65536)
            or format("FMT %d FDF %06x", stream.fmt, stream.fdf)
        return format("isochronous channel %d SID %d DBC %d %s %s", stream.channel, stream.sid, stream.dbc, said,
            stream.data == "" and "empty" or "block")
    end

    return streams
end
