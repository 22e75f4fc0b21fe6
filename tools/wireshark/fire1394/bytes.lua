-- Numbers in the bytes of an entry, which are a string; places in it are counted from 1, as Lua does.

local byte, floor, format = string.byte, math.floor, string.format

local bytes = {}

local POWERS = {}
for exponent = 0, 32 do
    POWERS[exponent] = 2 ^ exponent
end

-- The number of the two bytes at a place.
function bytes.doublet(text, at)
    local high, low = byte(text, at, at + 1)
    return high * 256 + low
end

-- The number of the four bytes at a place.
function bytes.quadlet(text, at)
    local a, b, c, d = byte(text, at, at + 3)
    return ((a * 256 + b) * 256 + c) * 256 + d
end

-- Bits `first` to `last` of a quadlet, whose most significant bit is 0.
function bytes.field(word, first, last)
    return floor(word / POWERS[31 - last]) % POWERS[last - first + 1]
end

-- The digits of some bytes.
function bytes.hexadecimal(text)
    return format(("%02x"):rep(#text), byte(text, 1, -1))
end

-- A space and the digits, if there are bytes.
function bytes.blank_hexadecimal(text)
    return text == "" and "" or " " .. bytes.hexadecimal(text)
end

-- A function of a name and some bytes that keeps the texts which it made, since most come again; it begins anew once these are many.
function bytes.kept(make)
    local MOST = 4096
    local made, count
    return function(name, data)
        if not made or count == MOST then
            made, count = {}, 0
        end
        local texts = made[name] or {}
        made[name] = texts
        if not texts[data] then
            texts[data], count = make(name, data), count + 1
        end
        return texts[data]
    end
end

return bytes
