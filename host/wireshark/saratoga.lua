-- A dissector of Saratoga (draft 09) for Wireshark and tshark: BEACON, METADATA, DATA and STATUS, with descriptors of 16, 32, 64 and
-- 128 bits. A packet that libsaratoga refuses to read has an expert note with the refusal's number; rules such as R3.5 are those of
-- docs/RULES.md. Put it in the folder of Lua plugins (Help, About, Folders), or: tshark -X lua_script:saratoga.lua -r capture

local saratoga = Proto("saratoga", "Saratoga File Transfer Protocol")

local TYPES = {[0] = "BEACON", [2] = "METADATA", [3] = "DATA", [4] = "STATUS"}
local WILL = {[0] = "cannot", [1] = "not allowed", [2] = "not-now", [3] = "willing"}
local CODES = {
    [0x00] = "no error", [0x01] = "unspecified error", [0x02] = "sender lacks resources", [0x03] = "receiver lacks resources",
    [0x04] = "file not found", [0x05] = "access denied", [0x06] = "unknown Id", [0x07] = "file not deleted",
    [0x08] = "file too long for the receiver", [0x09] = "descriptors do not match the transfer", [0x0A] = "unsupported packet type",
    [0x0B] = "unsupported request type", [0x0C] = "request timed out", [0x0D] = "flags of DATA have changed",
    [0x0E] = "receiver no longer wants the file", [0x0F] = "file in use", [0x10] = "METADATA required first",
    [0x11] = "unexpected error STATUS",
}
local REFUSALS = {
    [1] = "packet or settings file cut short", [2] = "packet longer than 65,535 octets", [3] = "not this version of the protocol",
    [4] = "packet type not taken here", [5] = "upper eight octets of a 128-bit descriptor are not zero", [6] = "not a plain file",
    [7] = "checksum type and length do not go together", [8] = "path empty, too long, or followed by octets",
    [9] = "size above what the descriptor width, or the marks, can hold", [10] = "DATA without a payload",
    [11] = "hole list not allowed, or a failure STATUS, which has none", [26] = "flags of BEACON not allowed",
}
local CHECKSUMS = {[0] = "none", [1] = "CRC-32c", [2] = "MD5", [3] = "SHA-1"}
local OCTETS = {[0] = 2, [1] = 4, [2] = 8, [3] = 16}
local EPOCH = 946684800 -- 2000 began so many seconds after 1970

local f = {
    version = ProtoField.uint8("saratoga.version", "Version", base.DEC, nil, 0xC0),
    type = ProtoField.uint8("saratoga.type", "Type", base.DEC, TYPES, 0x3F),
    flags = ProtoField.uint24("saratoga.flags", "Flags", base.HEX),
    id = ProtoField.uint32("saratoga.id", "Id"),
    width = ProtoField.uint8("saratoga.width", "Width of descriptors, bits"),
    kind = ProtoField.uint8("saratoga.kind", "Kind", base.DEC, {[0] = "file", "directory", "bundle", "stream"}),
    timestamp = ProtoField.bytes("saratoga.timestamp", "Timestamp"),
    checksum_type = ProtoField.uint8("saratoga.checksum.type", "Checksum type", base.DEC, CHECKSUMS),
    checksum_words = ProtoField.uint8("saratoga.checksum.words", "Checksum length, words"),
    checksum = ProtoField.bytes("saratoga.checksum", "Checksum"),
    properties = ProtoField.uint16("saratoga.properties", "Properties", base.HEX),
    size_width = ProtoField.uint8("saratoga.size_width", "Width of the size, bits"),
    size = ProtoField.uint64("saratoga.size", "Size, octets"),
    mtime = ProtoField.uint32("saratoga.mtime", "Modified, seconds since 2000"),
    ctime = ProtoField.uint32("saratoga.ctime", "Changed, seconds since 2000"),
    path = ProtoField.string("saratoga.path", "Path"),
    wanted = ProtoField.bool("saratoga.wanted", "STATUS wanted"),
    end_of_data = ProtoField.bool("saratoga.end_of_data", "End of data"),
    offset = ProtoField.uint64("saratoga.offset", "Offset"),
    payload = ProtoField.bytes("saratoga.payload", "Payload"),
    payload_len = ProtoField.uint32("saratoga.payload_len", "Payload, octets"),
    status = ProtoField.uint8("saratoga.status", "Status code", base.HEX, CODES),
    no_metadata = ProtoField.bool("saratoga.no_metadata", "METADATA not received"),
    incomplete = ProtoField.bool("saratoga.incomplete", "Hole list not complete"),
    unasked = ProtoField.bool("saratoga.unasked", "Sent unasked"),
    progress = ProtoField.uint64("saratoga.progress", "Progress"),
    in_response_to = ProtoField.uint64("saratoga.in_response_to", "In-Response-To"),
    hole_count = ProtoField.uint32("saratoga.hole_count", "Holes"),
    hole = ProtoField.string("saratoga.hole", "Hole"),
    hole_start = ProtoField.uint64("saratoga.hole.start", "Start"),
    hole_end = ProtoField.uint64("saratoga.hole.end", "End, the first offset after it"),
    largest_width = ProtoField.uint8("saratoga.largest_width", "Widest descriptors supported, bits"),
    bundles = ProtoField.bool("saratoga.bundles", "Bundles"),
    streams = ProtoField.bool("saratoga.streams", "Streams"),
    send = ProtoField.uint8("saratoga.send", "Sending", base.DEC, WILL),
    receive = ProtoField.uint8("saratoga.receive", "Receiving", base.DEC, WILL),
    udp_lite = ProtoField.bool("saratoga.udp_lite", "UDP-Lite"),
    free_width = ProtoField.uint8("saratoga.free_width", "Width of the free space, bits"),
    free_space = ProtoField.uint64("saratoga.free_space", "Free space, KiB"),
    endpoint = ProtoField.string("saratoga.endpoint", "Endpoint"),
    above = ProtoField.bytes("saratoga.above", "Descriptor of 2^64 or more"),
    rest = ProtoField.bytes("saratoga.rest", "Not read"),
    refused = ProtoField.uint8("saratoga.refused", "Refused by libsaratoga", base.DEC, REFUSALS),
    refused_code = ProtoField.uint8("saratoga.refused.code", "Status code of the refusal", base.HEX, CODES),
}
saratoga.fields = f

local CODE_OF = {[4] = 0x0A, [5] = 0x09, [6] = 0x01, [7] = 0x01, [8] = 0x01, [9] = 0x09, [10] = 0x01} -- of others 0: send nothing
local notes, cut_note = {}, ProtoExpert.new("saratoga.cut", "Cut by the capture, and not judged", expert.group.UNDECODED, expert.severity.WARN)
local listed = {cut_note}
for number, text in pairs(REFUSALS) do
    notes[number] = ProtoExpert.new("saratoga.refused." .. number, "Refused with " .. number .. ": " .. text, expert.group.MALFORMED,
                                    expert.severity.ERROR)
    listed[#listed + 1] = notes[number]
end
saratoga.experts = listed

saratoga.prefs.port = Pref.uint("UDP port", 7542, "The UDP port that Saratoga is on")

-- `count` bits of the flags, from bit `first` on, where bit 8 is the highest: a number.
local function bits(flags, first, count)
    return math.floor(flags / 2 ^ (32 - first - count)) % 2 ^ count
end

-- Octets as passtext writes them: what is not printable, the blank, # and %, as % and two digits.
local function text_of(range)
    return (range:raw():gsub("[%z\1-\32\127-\255#%%]", function(letter) return string.format("%%%02x", letter:byte()) end))
end

-- One packet being read, from the left: refusals are raised with the number, and caught where the packet is judged.
local Packet = {}
Packet.__index = Packet

function Packet.refuse(number)
    error({refused = number}, 0)
end

function Packet:left()
    return self.tvb:len() - self.at
end

-- The next octets; 1 where they are not all there.
function Packet:take(count)
    if self:left() < count then Packet.refuse(1) end
    self.at = self.at + count
    return self.tvb(self.at - count, count)
end

-- The number in a descriptor of so many octets, and its place; 5 where it is 2^64 or more (R3.9).
function Packet:number(range, octets)
    if octets < 16 then return range:uint64(), range end
    if range(0, 8):uint64() ~= UInt64(0) then
        self.tree:add(f.above, range)
        Packet.refuse(5)
    end
    return range(8, 8):uint64(), range
end

function Packet:descriptor(field, octets)
    local value, range = self:number(self:take(octets), octets)
    self.tree:add(field, range, value)
    return value
end

function Packet:flag(field, bit)
    local set = bits(self.flags, bit, 1) == 1
    self.tree:add(field, self.tvb(1, 3), set)
    return set
end

function Packet:shown_width(field, first)
    local octets = OCTETS[bits(self.flags, first, 2)]
    self.tree:add(field, self.tvb(1, 3), 8 * octets)
    return octets
end

function Packet:take_timestamp()
    if bits(self.flags, 12, 1) == 1 then self.tree:add(f.timestamp, self:take(16)) end
end

function Packet:judge_kind()
    local kind = bits(self.flags, 10, 2)
    self.tree:add(f.kind, self.tvb(1, 3), kind)
    if kind ~= 0 then Packet.refuse(6) end
end

-- R2.7: which types go with which lengths.
local function pair_is_taken(kind, words)
    local only = ({[0] = 0, [1] = 1, [2] = 4, [3] = 5})[kind]
    if only ~= nil then return words == only end
    return words >= 1
end

-- R2.9: the path, which ends with the packet's one zero octet.
function Packet:path()
    local rest = self:left() > 0 and self.tvb(self.at):raw() or ""
    local zero = rest:sub(1, 1024):find("\0", 1, true)
    if zero == nil then Packet.refuse(#rest < 1024 and 1 or 8) end
    if zero > 1 then self.tree:add(f.path, self.tvb(self.at, zero - 1), text_of(self.tvb(self.at, zero - 1))) end
    if zero == 1 or zero < #rest then Packet.refuse(8) end
    local path = text_of(self.tvb(self.at, zero - 1))
    self.at = self.tvb:len()
    return path
end

function Packet:time(field)
    local range = self:take(4)
    self.tree:add(field, range):append_text(" (" .. os.date("!%Y-%m-%d %H:%M:%S", range:uint() + EPOCH) .. " UTC)")
end

-- R3.3
function Packet:metadata()
    local width = self:shown_width(f.width, 8)
    self:judge_kind()
    local words, kind = bits(self.flags, 24, 4), bits(self.flags, 28, 4)
    self.tree:add(f.checksum_type, self.tvb(3, 1), kind)
    self.tree:add(f.checksum_words, self.tvb(3, 1), words)
    if not pair_is_taken(kind, words) then Packet.refuse(7) end
    if words > 0 then self.tree:add(f.checksum, self:take(4 * words)) end
    local properties = self:take(2)
    self.tree:add(f.properties, properties)
    local of_size = OCTETS[math.floor(properties:uint() / 64) % 4]
    self.tree:add(f.size_width, properties, 8 * of_size)
    if math.floor(properties:uint() / 256) % 4 ~= 0 or math.floor(properties:uint() / 32) % 2 ~= 0 then Packet.refuse(6) end
    local size = self:descriptor(f.size, of_size)
    self:time(f.mtime)
    self:time(f.ctime)
    local path = self:path()
    if width < 8 and size >= UInt64(2 ^ (8 * width)) then Packet.refuse(9) end
    return string.format("METADATA id=%u length=%s %s", self.id, tostring(size), path)
end

-- R3.4
function Packet:data()
    local width = self:shown_width(f.width, 8)
    self:judge_kind()
    local wanted, last = self:flag(f.wanted, 15), self:flag(f.end_of_data, 16)
    self:take_timestamp()
    local offset = self:descriptor(f.offset, width)
    local length = self:left()
    if length == 0 then Packet.refuse(10) end
    self.tree:add(f.payload_len, self.tvb(self.at, length), length)
    self.tree:add(f.payload, self:take(length))
    return string.format("DATA id=%u offset=%s length=%u%s%s", self.id, tostring(offset), length, wanted and " wanted" or "",
                         last and " eod" or "")
end

-- The hole list, and R3.6 and R3.7. Each descriptor that is all there is judged before the list is.
function Packet:holes(width, progress, response, incomplete, unasked)
    local left = self:left()
    local count, allowed, ends = math.floor(left / (2 * width)), progress <= response, nil
    local branch = self.tree:add(f.hole_count, self.tvb(self.at, left), count)
    for index = 1, count do
        local range = self:take(2 * width)
        local first = self:number(range(0, width), width)
        local stop = self:number(range(width, width), width)
        local item = branch:add(f.hole, range, tostring(first) .. "-" .. tostring(stop))
        item:add(f.hole_start, range(0, width), first)
        item:add(f.hole_end, range(width, width), stop)
        allowed = allowed and progress <= first and first < stop and stop <= response
        if index == 1 then
            allowed = allowed and (incomplete or first == progress)
        else
            allowed = allowed and ends < first
        end
        ends = stop
    end
    if self:left() >= width then self:number(self:take(width), width) end
    if self:left() > 0 or left % (2 * width) ~= 0 then Packet.refuse(11) end
    if count == 0 and not incomplete then
        local last = unasked and progress ~= UInt64(0) and response == progress - UInt64(1)
        allowed = progress == response or last
    end
    if not allowed then Packet.refuse(11) end
    return count
end

-- R3.5
function Packet:status()
    local code = bits(self.flags, 24, 8)
    self.tree:add(f.status, self.tvb(3, 1), code)
    if code ~= 0 then
        self.at = self.tvb:len()
        return string.format("STATUS id=%u failure 0x%02x: %s", self.id, code, CODES[code] or "unknown status code")
    end
    local width = self:shown_width(f.width, 8)
    self:flag(f.no_metadata, 13)
    local incomplete, unasked = self:flag(f.incomplete, 14), self:flag(f.unasked, 15)
    self:take_timestamp()
    local progress = self:descriptor(f.progress, width)
    local response = self:descriptor(f.in_response_to, width)
    local count = self:holes(width, progress, response, incomplete, unasked)
    return string.format("STATUS id=%u progress=%s in-response-to=%s holes=%u%s", self.id, tostring(progress), tostring(response), count,
                         incomplete and " incomplete" or "")
end

-- R3.8
function Packet:beacon()
    local send, receive = bits(self.flags, 12, 2), bits(self.flags, 14, 2)
    self:shown_width(f.largest_width, 8)
    self:flag(f.bundles, 10)
    self:flag(f.streams, 11)
    self.tree:add(f.send, self.tvb(1, 3), send)
    self.tree:add(f.receive, self.tvb(1, 3), receive)
    self:flag(f.udp_lite, 16)
    if send == 1 or receive == 1 or bits(self.flags, 24, 8) ~= 0 then Packet.refuse(26) end
    if bits(self.flags, 17, 1) == 1 then
        local width = self:shown_width(f.free_width, 18)
        self:descriptor(f.free_space, width)
    end
    local endpoint = self:left() > 0 and text_of(self.tvb(self.at)) or ""
    if endpoint ~= "" then self.tree:add(f.endpoint, self:take(self:left()), endpoint) end
    return string.format("BEACON %s send=%s receive=%s", endpoint, WILL[send], WILL[receive])
end

-- R3.1 and R3.2, and then by type. Gives the line for the list of packets.
function Packet:read()
    local length, first = self.tvb:len(), self.tvb(0, 1):uint()
    self.tree:add(f.version, self.tvb(0, 1))
    self.tree:add(f.type, self.tvb(0, 1))
    if length > 65535 then Packet.refuse(2) end
    if length < (first == 0x40 and 4 or 8) then Packet.refuse(1) end
    if math.floor(first / 64) ~= 1 then Packet.refuse(3) end
    local read = ({[0] = self.beacon, [2] = self.metadata, [3] = self.data, [4] = self.status})[first % 64]
    if read == nil then Packet.refuse(4) end
    self.flags = self.tvb(1, 3):uint()
    self.tree:add(f.flags, self.tvb(1, 3))
    self.at = 4
    if read ~= self.beacon then
        self.id = self.tvb(4, 4):uint()
        self.tree:add(f.id, self:take(4))
    end
    return read(self)
end

-- Says that a packet is refused, and which octets were not read.
function Packet:refused(number, pinfo)
    self.tree:add(f.refused, number):set_generated()
    self.tree:add(f.refused_code, CODE_OF[number] or 0):set_generated()
    if self:left() > 0 then self.tree:add(f.rest, self.tvb(self.at)) end
    self.tree:add_proto_expert_info(notes[number])
    local name = TYPES[self.tvb(0, 1):uint() % 64] or "packet"
    pinfo.cols.info = string.format("%s refused with %d: %s", name, number, REFUSALS[number])
end

function saratoga.dissector(tvb, pinfo, root)
    if tvb:len() == 0 then return 0 end
    pinfo.cols.protocol = "Saratoga"
    local packet = setmetatable({tvb = tvb, at = 0, tree = root:add(saratoga, tvb())}, Packet)
    local well, told = pcall(packet.read, packet)
    if well then
        pinfo.cols.info = told
    elseif type(told) ~= "table" then
        error(told, 0)
    elseif tvb:reported_len() > tvb:len() then
        packet.tree:add_proto_expert_info(cut_note)
        pinfo.cols.info = "cut by the capture"
    else
        packet:refused(told.refused, pinfo)
    end
    return tvb:len()
end

local ports, port = DissectorTable.get("udp.port"), saratoga.prefs.port
ports:add(port, saratoga)

function saratoga.prefs_changed()
    if port ~= saratoga.prefs.port then
        ports:remove(port, saratoga)
        port = saratoga.prefs.port
        ports:add(port, saratoga)
    end
end
