-- Isochronous packets as Wireshark's own dissector of IEC 61883 has them. It reads them as AVTP (IEEE 1722) carries them: after 20 bytes,
-- of which the first is the subtype and the second says that the stream has an ID.

local AVTP = ByteArray.new("0080" .. ("00"):rep(18))
local SUBTYPE_61883 = 0

local cip = {}
local dissector

-- Shows the packet that is in these bytes from a place on, if this Wireshark can.
function cip.show(tvb, at, pinfo, tree)
    if dissector == nil then
        local subtypes = DissectorTable.get("ieee1722.subtype")
        dissector = subtypes and subtypes:get_dissector(SUBTYPE_61883) or false
    end
    if dissector then
        dissector:call((AVTP .. tvb(at):bytes()):tvb("AVTP"), pinfo, tree)
    end
end

return cip
