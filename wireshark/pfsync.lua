-- pfsync.lua: a dissector of pfsync(4) version 5, as FreeBSD 13 sends it, for Wireshark 3 and 4.
--
--   tshark -X lua_script:pfsync.lua -r A.pcap -O pfsync
--   wireshark -X lua_script:pfsync.lua A.pcap
--
-- Copied to the folder that Help > About > Folders names as "Personal Lua Plugins" (~/.local/lib/wireshark/plugins on Unix), it is
-- loaded by every start.
--
-- Source of the layout: sys/net/if_pfsync.h and sys/net/pfvar.h of FreeBSD 13, restated from memory. It was tried on captures that
-- pfl_lab wrote from the same table, with tshark 4.0.17, and never on one of FreeBSD's. How sure each field is stands beside it below, in
-- percent. No other version is dissected: version 6 is OpenBSD's. Actions 13 and 14, by which FreeBSD 14 sends states of its own layout as
-- far as we know, are shown as unknown.
--
-- Messages are found as IP protocol 240. A capture of the interface pfsync0 has link type 246 (LINKTYPE_PFSYNC) and no IP header.
-- Wireshark 4.0.17 does not know that type, and refuses such files whole; where a version knows it, this dissector takes it. Until then:
-- overwrite the type by that of DLT_USER0, 147, and name `pfsync` as its payload.
--   printf '\223' | dd of=COPY.pcap bs=1 seek=20 conv=notrunc
--   tshark -X lua_script:pfsync.lua -o 'uat:user_dlts:"User 0 (DLT=147)","pfsync","0","","0",""' -r COPY.pcap

-- ---------------------------------------------------------------------------------------------------------------- layout

-- The fields of each part in their order: name, bytes, how sure we are in percent. All numbers are in network order. Offsets come from
-- here alone.
local HEADER = {
  { "version", 1, 99 },
  { "_pad", 1, 97 },
  { "len", 2, 95 }, -- of header and records, without the IP header
  { "pfcksum", 16, 97 }, -- MD5 of the rules
}
local SUBHEADER = {
  { "action", 1, 99 },
  { "_pad", 1, 90 },
  { "count", 2, 97 },
}
local PEER = {
  { "scrub.pfss_flags", 2, 90 },
  { "scrub.pfss_ttl", 1, 85 },
  { "scrub.scrub_flag", 1, 85 },
  { "scrub.pfss_ts_mod", 4, 88 },
  { "seqlo", 4, 95 },
  { "seqhi", 4, 95 },
  { "seqdiff", 4, 95 },
  { "max_win", 2, 93 },
  { "mss", 2, 93 },
  { "state", 1, 93 },
  { "wscale", 1, 93 }, -- 0x80 where the end has offered one (PF_WSCALE_FLAG)
  { "pad", 6, 85 },
}
local STATE = {
  { "id", 8, 97 },
  { "ifname", 16, 97 },
  { "key[0].addr[2]", 32, 95 }, -- on the wire (PF_SK_WIRE): far, near
  { "key[0].port[2]", 4, 95 },
  { "key[1].addr[2]", 32, 95 }, -- on the stack (PF_SK_STACK)
  { "key[1].port[2]", 4, 92 },
  { "src", 32, 95 },
  { "dst", 32, 95 },
  { "rt_addr", 16, 93 },
  { "rule", 4, 95 }, -- all ones for none
  { "anchor", 4, 95 },
  { "nat_rule", 4, 95 },
  { "creation", 4, 95 },
  { "expire", 4, 97 },
  { "packets[2][2]", 16, 90 },
  { "bytes[2][2]", 16, 90 },
  { "creatorid", 4, 95 },
  { "af", 1, 95 },
  { "proto", 1, 95 },
  { "direction", 1, 95 },
  { "__spare[2]", 2, 85 },
  { "log", 1, 85 },
  { "state_flags", 1, 85 },
  { "timeout", 1, 88 },
  { "sync_flags", 1, 85 },
  { "updates", 1, 85 },
}
local SHORT_UPDATE = {
  { "id", 8, 95 },
  { "src", 32, 93 },
  { "dst", 32, 93 },
  { "creatorid", 4, 93 },
  { "expire", 4, 93 },
  { "timeout", 1, 93 },
  { "_pad", 3, 90 },
}
local NAME = {
  { "id", 8, 95 },
  { "creatorid", 4, 95 },
}
local CLEAR = {
  { "ifname", 16, 93 }, -- empty for all
  { "creatorid", 4, 93 },
}
local BULK_STATUS = {
  { "creatorid", 4, 93 },
  { "endtime", 4, 93 },
  { "status", 1, 93 },
  { "_pad", 3, 90 },
}
local TDB = {
  { "spi", 4, 80 },
  { "dst", 28, 70 }, -- a sockaddr_union
  { "rpl", 4, 80 },
  { "cur_bytes", 8, 80 },
  { "sproto", 1, 80 },
  { "updates", 1, 80 },
  { "_pad", 2, 80 },
}

-- Works out where each field of a part begins, and how long the part is.
for _, part in ipairs({ HEADER, SUBHEADER, PEER, STATE, SHORT_UPDATE, NAME, CLEAR, BULK_STATUS, TDB }) do
  part.size, part.at = 0, {}
  for _, field in ipairs(part) do
    part.at[field[1]] = { offset = part.size, size = field[2] }
    part.size = part.size + field[2]
  end
end

-- The records of each action (PFSYNC_ACT_*).
local PARTS = {
  [0] = CLEAR,
  [1] = STATE,
  [2] = NAME,
  [3] = STATE,
  [4] = SHORT_UPDATE,
  [5] = NAME,
  [6] = STATE,
  [7] = NAME,
  [10] = BULK_STATUS,
  [11] = TDB,
}
local VERSION, IP_PROTOCOL, REQUEST, END, NO_RULE = 5, 240, 5, 12, 0xffffffff

-- ----------------------------------------------------------------------------------------------------------------- names

local ACTIONS = {
  [0] = "CLR",
  [1] = "INS",
  [2] = "INS_ACK",
  [3] = "UPD",
  [4] = "UPD_C",
  [5] = "UPD_REQ",
  [6] = "DEL",
  [7] = "DEL_C",
  [8] = "INS_F", -- 8 and 9 are reserved for fragments, and have no layout
  [9] = "DEL_F",
  [10] = "BUS",
  [11] = "TDB",
  [12] = "EOF",
}
local TCP_LEVELS = {
  [0] = "CLOSED",
  [1] = "LISTEN",
  [2] = "SYN_SENT",
  [3] = "SYN_RCVD",
  [4] = "ESTABLISHED",
  [5] = "CLOSE_WAIT",
  [6] = "FIN_WAIT_1",
  [7] = "CLOSING",
  [8] = "LAST_ACK",
  [9] = "FIN_WAIT_2",
  [10] = "TIME_WAIT",
  [11] = "PROXY:SRC",
  [12] = "PROXY:DST",
}
local OTHER_LEVELS = { [0] = "NO_TRAFFIC", [1] = "SINGLE", [2] = "MULTIPLE" }
local CLASSES = {
  [0] = "tcp.first",
  [1] = "tcp.opening",
  [2] = "tcp.established",
  [3] = "tcp.closing",
  [4] = "tcp.finwait",
  [5] = "tcp.closed",
  [6] = "udp.first",
  [7] = "udp.single",
  [8] = "udp.multiple",
  [9] = "icmp.first",
  [10] = "icmp.error",
  [11] = "other.first",
  [12] = "other.single",
  [13] = "other.multiple",
}
local TCP, ICMP = 6, 1
local PROTOCOLS = { [1] = "icmp", [6] = "tcp", [17] = "udp", [47] = "gre", [50] = "esp", [58] = "ipv6-icmp", [132] = "sctp" }
local IPV4, IPV6 = 2, 28 -- AF_INET and AF_INET6 of FreeBSD
local FAMILIES = { [IPV4] = "IPv4", [IPV6] = "IPv6" }
local DIRECTIONS = { [1] = "in", [2] = "out" }
local STATUSES = { [1] = "start", [2] = "end" }

-- ---------------------------------------------------------------------------------------------------------------- fields

local pfsync = Proto("pfsync", "Packet Filter State Synchronization")

local F = {
  version = ProtoField.uint8("pfsync.version", "Version", base.DEC),
  len = ProtoField.uint16("pfsync.len", "Length", base.DEC, nil, nil, "Bytes of the header and of the records"),
  pfcksum = ProtoField.bytes("pfsync.pfcksum", "Checksum of the rules", base.NONE),
  group = ProtoField.none("pfsync.group", "Group"),
  action = ProtoField.uint8("pfsync.action", "Action", base.DEC, ACTIONS),
  count = ProtoField.uint16("pfsync.count", "Records", base.DEC),
  record = ProtoField.none("pfsync.record", "Record"),
  name = ProtoField.string("pfsync.name", "State", base.ASCII, "ID/CREATOR, as pfctl -k id takes it"),
  id = ProtoField.uint64("pfsync.id", "Id", base.HEX),
  creatorid = ProtoField.uint32("pfsync.creatorid", "Creator", base.HEX),
  ifname = ProtoField.string("pfsync.ifname", "Interface", base.ASCII),
  af = ProtoField.uint8("pfsync.af", "Address family", base.DEC, FAMILIES),
  proto = ProtoField.uint8("pfsync.proto", "Protocol", base.DEC, PROTOCOLS),
  direction = ProtoField.uint8("pfsync.direction", "Direction", base.DEC, DIRECTIONS),
  addr = ProtoField.ipv4("pfsync.addr", "Address"),
  addr6 = ProtoField.ipv6("pfsync.addr6", "Address"),
  port = ProtoField.uint16("pfsync.port", "Port", base.DEC),
  unknown_addr = ProtoField.bytes("pfsync.unknown_addr", "Address of an unknown family", base.NONE),
  rt_addr = ProtoField.ipv4("pfsync.rt_addr", "Gateway"),
  rt_addr6 = ProtoField.ipv6("pfsync.rt_addr6", "Gateway"),
  rule = ProtoField.uint32("pfsync.rule", "Rule", base.DEC),
  anchor = ProtoField.uint32("pfsync.anchor", "Anchor", base.DEC),
  nat_rule = ProtoField.uint32("pfsync.nat_rule", "Rule of the translation", base.DEC),
  creation = ProtoField.uint32("pfsync.creation", "Age in seconds", base.DEC),
  expire = ProtoField.uint32("pfsync.expire", "Expires in seconds", base.DEC),
  timeout = ProtoField.uint8("pfsync.timeout", "Timeout", base.DEC, CLASSES),
  src_packets = ProtoField.uint64("pfsync.src.packets", "Packets of the source", base.DEC),
  dst_packets = ProtoField.uint64("pfsync.dst.packets", "Packets of the destination", base.DEC),
  src_bytes = ProtoField.uint64("pfsync.src.bytes", "Bytes of the source", base.DEC),
  dst_bytes = ProtoField.uint64("pfsync.dst.bytes", "Bytes of the destination", base.DEC),
  log = ProtoField.uint8("pfsync.log", "Log", base.HEX),
  state_flags = ProtoField.uint8("pfsync.state_flags", "Flags of the state", base.HEX),
  allow_opts = ProtoField.bool("pfsync.state_flags.allow_opts", "allow-opts", 8, nil, 0x01),
  sloppy = ProtoField.bool("pfsync.state_flags.sloppy", "sloppy", 8, nil, 0x02),
  no_sync = ProtoField.bool("pfsync.state_flags.no_sync", "no-sync", 8, nil, 0x08),
  ack = ProtoField.bool("pfsync.state_flags.ack", "Asks for an acknowledgement", 8, nil, 0x10),
  sync_flags = ProtoField.uint8("pfsync.sync_flags", "Flags of pfsync", base.HEX),
  updates = ProtoField.uint8("pfsync.updates", "Updates", base.DEC),
  endtime = ProtoField.uint32("pfsync.endtime", "End time", base.DEC),
  status = ProtoField.uint8("pfsync.status", "Bulk update", base.DEC, STATUSES),
  spi = ProtoField.uint32("pfsync.tdb.spi", "SPI", base.HEX),
  tdb_dst = ProtoField.bytes("pfsync.tdb.dst", "Destination", base.NONE),
  rpl = ProtoField.uint32("pfsync.tdb.rpl", "Replay counter", base.DEC),
  cur_bytes = ProtoField.uint64("pfsync.tdb.cur_bytes", "Bytes", base.DEC),
  sproto = ProtoField.uint8("pfsync.tdb.sproto", "Protocol", base.DEC, PROTOCOLS),
  tdb_updates = ProtoField.uint8("pfsync.tdb.updates", "Updates", base.DEC),
}

-- The four ends of the keys: each with an address of either family, and a port.
local ENDS = {
  { key = 0, nth = 0, name = "wire.far", title = "Wire, far end" },
  { key = 0, nth = 1, name = "wire.near", title = "Wire, near end" },
  { key = 1, nth = 0, name = "stack.far", title = "Stack, far end" },
  { key = 1, nth = 1, name = "stack.near", title = "Stack, near end" },
}
for _, it in ipairs(ENDS) do
  F[it.name .. ".addr"] = ProtoField.ipv4("pfsync." .. it.name .. ".addr", it.title)
  F[it.name .. ".addr6"] = ProtoField.ipv6("pfsync." .. it.name .. ".addr6", it.title)
  F[it.name .. ".port"] = ProtoField.uint16("pfsync." .. it.name .. ".port", it.title .. ", port", base.DEC)
end

-- What a record has of either end of a connection (pfsync_state_peer).
for which, title in pairs({ src = "Source", dst = "Destination" }) do
  local function name(word)
    return "pfsync." .. which .. "." .. word
  end
  F[which] = ProtoField.none("pfsync." .. which, title)
  F[which .. ".scrub.pfss_flags"] = ProtoField.uint16(name("scrub.flags"), "Flags of scrub", base.HEX)
  F[which .. ".scrub.pfss_ttl"] = ProtoField.uint8(name("scrub.ttl"), "Least TTL", base.DEC)
  F[which .. ".scrub.scrub_flag"] = ProtoField.uint8(name("scrub.valid"), "Scrub is valid", base.DEC)
  F[which .. ".scrub.pfss_ts_mod"] = ProtoField.uint32(name("scrub.ts_mod"), "Added to timestamps", base.DEC)
  F[which .. ".seqlo"] = ProtoField.uint32(name("seqlo"), "Next sequence number", base.DEC)
  F[which .. ".seqhi"] = ProtoField.uint32(name("seqhi"), "Greatest sequence number", base.DEC)
  F[which .. ".seqdiff"] = ProtoField.uint32(name("seqdiff"), "Added to sequence numbers", base.DEC)
  F[which .. ".max_win"] = ProtoField.uint16(name("max_win"), "Greatest window", base.DEC)
  F[which .. ".mss"] = ProtoField.uint16(name("mss"), "MSS", base.DEC)
  F[which .. ".state"] = ProtoField.uint8(name("state"), "Level", base.DEC)
  F[which .. ".level"] = ProtoField.string(name("level"), "Name of the level", base.ASCII)
  F[which .. ".wscale"] = ProtoField.uint8(name("wscale"), "Window scale", base.HEX)
  F[which .. ".wscale.offered"] = ProtoField.bool(name("wscale.offered"), "Offered", 8, nil, 0x80)
  F[which .. ".wscale.shift"] = ProtoField.uint8(name("wscale.shift"), "Shift", base.DEC, nil, 0x0f)
end

local fields = {}
for _, it in pairs(F) do
  fields[#fields + 1] = it
end
pfsync.fields = fields

local E = {
  cut = ProtoExpert.new("pfsync.cut", "The message is cut", expert.group.MALFORMED, expert.severity.ERROR),
  snapped = ProtoExpert.new("pfsync.captured_short", "The packet was captured short", expert.group.UNDECODED, expert.severity.WARN),
  version = ProtoExpert.new("pfsync.version.unknown", "Unknown version", expert.group.UNDECODED, expert.severity.WARN),
  action = ProtoExpert.new("pfsync.action.unknown", "Unknown action", expert.group.UNDECODED, expert.severity.WARN),
  family = ProtoExpert.new("pfsync.af.unknown", "Unknown address family", expert.group.UNDECODED, expert.severity.WARN),
  value = ProtoExpert.new("pfsync.value.unknown", "Value without a meaning", expert.group.PROTOCOL, expert.severity.WARN),
  rest = ProtoExpert.new("pfsync.rest", "Bytes after the message", expert.group.PROTOCOL, expert.severity.NOTE),
  no_end = ProtoExpert.new("pfsync.no_eof", "No group EOF", expert.group.PROTOCOL, expert.severity.NOTE),
}
pfsync.experts = { E.cut, E.snapped, E.version, E.action, E.family, E.value, E.rest, E.no_end }

-- --------------------------------------------------------------------------------------------------------------- records

-- A whole number for people: versions of Lua differ in what `..` makes of one.
local function number(value)
  return string.format("%d", value)
end

-- The bytes of a field of a part that begins at an offset.
local function range(tvb, from, part, name)
  local it = part.at[name]
  return tvb(from + it.offset, it.size)
end

-- ID/CREATOR, as pfctl -vv prints them.
local function name_of(tvb, from, part)
  local id, creator = range(tvb, from, part, "id"), range(tvb, from, part, "creatorid")
  return string.format("%s/%s", id:bytes():tohex(true), creator:bytes():tohex(true))
end

-- A name of bytes that a NUL may end; what is no letter, digit or sign is shown as a dot.
local function interface_of(bytes)
  local text = ""
  for at = 0, bytes:len() - 1 do
    local byte = bytes(at, 1):uint()
    if byte == 0 then
      break
    end
    text = text .. ((byte > 32 and byte < 127) and string.char(byte) or ".")
  end
  return text
end

local function add_interface(tree, tvb, from, part)
  local bytes = range(tvb, from, part, "ifname")
  local text = interface_of(bytes)
  local item = tree:add(F.ifname, bytes, text)
  if text == "" then
    item:append_text("(all)")
  end
  return text
end

local function add_name(tree, tvb, from, part)
  local text = name_of(tvb, from, part)
  tree:add(F.name, range(tvb, from, part, "id"), text):set_generated()
  tree:add(F.id, range(tvb, from, part, "id"))
  tree:add(F.creatorid, range(tvb, from, part, "creatorid"))
  return text
end

-- The level of an end by its name, which depends on the protocol; that of ICMP has none.
local function level_name(proto, level)
  if proto == ICMP then
    return number(level)
  end
  return (proto == TCP and TCP_LEVELS or OTHER_LEVELS)[level] or number(level)
end

-- The protocol of a short update, which has none: it can be told by the class of its timeout as far as levels are concerned.
local function protocol_by_class(class)
  local family = string.match(CLASSES[class] or "", "^%a+")
  return family == "tcp" and TCP or family == "icmp" and ICMP or 0
end

local function add_peer(tree, tvb, from, which, proto)
  local peer = tree:add(F[which], tvb(from, PEER.size))
  for _, it in ipairs({ "scrub.pfss_flags", "scrub.pfss_ttl", "scrub.scrub_flag", "scrub.pfss_ts_mod" }) do
    peer:add(F[which .. "." .. it], range(tvb, from, PEER, it))
  end
  for _, it in ipairs({ "seqlo", "seqhi", "seqdiff", "max_win", "mss" }) do
    peer:add(F[which .. "." .. it], range(tvb, from, PEER, it))
  end
  local level = level_name(proto, range(tvb, from, PEER, "state"):uint())
  peer:add(F[which .. ".state"], range(tvb, from, PEER, "state")):append_text(" (" .. level .. ")")
  peer:add(F[which .. ".level"], range(tvb, from, PEER, "state"), level):set_generated()
  local scale = range(tvb, from, PEER, "wscale")
  local scales = peer:add(F[which .. ".wscale"], scale)
  scales:add(F[which .. ".wscale.offered"], scale)
  scales:add(F[which .. ".wscale.shift"], scale)
  local lo, hi = range(tvb, from, PEER, "seqlo"):uint(), range(tvb, from, PEER, "seqhi"):uint()
  peer:append_text(string.format(": %s [%.0f + %.0f]", level, lo, (hi - lo) % 4294967296))
  if scale:uint() >= 128 then
    peer:append_text(" wscale " .. number(scale:uint() % 16))
  end
  return level
end

-- An address in 16 bytes, as a value for people.
local function address_text(bytes, af)
  if af == IPV4 then
    return tostring(bytes(0, 4):ipv4())
  end
  return af == IPV6 and tostring(bytes:ipv6()) or bytes:bytes():tohex(true)
end

local function add_address(tree, bytes, af, v4, v6)
  if af == IPV4 then
    return tree:add(v4, bytes(0, 4))
  end
  return tree:add(af == IPV6 and v6 or F.unknown_addr, bytes)
end

-- Adds an end of a key, and again under the fields that any end has; returns it as ADDRESS:PORT.
local function add_end(tree, tvb, from, which, af)
  local addresses = range(tvb, from, STATE, string.format("key[%d].addr[2]", which.key))
  local ports = range(tvb, from, STATE, string.format("key[%d].port[2]", which.key))
  local address, port = addresses(16 * which.nth, 16), ports(2 * which.nth, 2)
  add_address(tree, address, af, F[which.name .. ".addr"], F[which.name .. ".addr6"])
  tree:add(F[which.name .. ".port"], port)
  if FAMILIES[af] then
    add_address(tree, address, af, F.addr, F.addr6):set_hidden()
  end
  tree:add(F.port, port):set_hidden()
  local text = address_text(address, af)
  return (af == IPV6 and "[" .. text .. "]" or text) .. ":" .. number(port:uint())
end

local function with_other(shown, other)
  return shown == other and shown or shown .. " (" .. other .. ")"
end

-- The flow as pfctl prints it: the near end, an arrow in the direction of the first packet, the far end; in brackets what a translation
-- hides.
local function flow_text(ends, direction)
  local wire, stack = { far = ends["wire.far"], near = ends["wire.near"] }, { far = ends["stack.far"], near = ends["stack.near"] }
  local is_out = direction == 2
  local shown, other = is_out and wire or stack, is_out and stack or wire
  local arrow = is_out and " -> " or direction == 1 and " <- " or " ? "
  return with_other(shown.near, other.near) .. arrow .. with_other(shown.far, other.far)
end

local function add_rule(tree, tvb, from, name)
  local bytes = range(tvb, from, STATE, name)
  local item = tree:add(F[name], bytes)
  if bytes:uint() == NO_RULE then
    item:append_text(" (none)")
  end
end

local function add_known(tree, field, bytes, names)
  local item = tree:add(field, bytes)
  if not names[bytes:uint()] then
    item:add_proto_expert_info(E.value)
  end
end

local function add_counters(tree, tvb, from)
  local packets, bytes = range(tvb, from, STATE, "packets[2][2]"), range(tvb, from, STATE, "bytes[2][2]")
  tree:add(F.src_packets, packets(0, 8))
  tree:add(F.dst_packets, packets(8, 8))
  tree:add(F.src_bytes, bytes(0, 8))
  tree:add(F.dst_bytes, bytes(8, 8))
end

local function add_flags(tree, tvb, from)
  local bytes = range(tvb, from, STATE, "state_flags")
  local flags = tree:add(F.state_flags, bytes)
  for _, it in ipairs({ "allow_opts", "sloppy", "no_sync", "ack" }) do
    flags:add(F[it], bytes)
  end
end

-- A whole state: of an insertion, an update or a deletion.
local function add_state(tree, tvb, from)
  local name = add_name(tree, tvb, from, STATE)
  add_interface(tree, tvb, from, STATE)
  local af, proto = range(tvb, from, STATE, "af"):uint(), range(tvb, from, STATE, "proto"):uint()
  local direction = range(tvb, from, STATE, "direction"):uint()
  local family = tree:add(F.af, range(tvb, from, STATE, "af"))
  if not FAMILIES[af] then
    family:add_proto_expert_info(E.family)
  end
  tree:add(F.proto, range(tvb, from, STATE, "proto"))
  add_known(tree, F.direction, range(tvb, from, STATE, "direction"), DIRECTIONS)
  local ends = {}
  for _, it in ipairs(ENDS) do
    ends[it.name] = add_end(tree, tvb, from, it, af)
  end
  local src = add_peer(tree, tvb, from + STATE.at["src"].offset, "src", proto)
  local dst = add_peer(tree, tvb, from + STATE.at["dst"].offset, "dst", proto)
  add_address(tree, range(tvb, from, STATE, "rt_addr"), af, F.rt_addr, F.rt_addr6)
  for _, it in ipairs({ "rule", "anchor", "nat_rule" }) do
    add_rule(tree, tvb, from, it)
  end
  tree:add(F.creation, range(tvb, from, STATE, "creation"))
  tree:add(F.expire, range(tvb, from, STATE, "expire"))
  add_known(tree, F.timeout, range(tvb, from, STATE, "timeout"), CLASSES)
  add_counters(tree, tvb, from)
  tree:add(F.log, range(tvb, from, STATE, "log"))
  add_flags(tree, tvb, from)
  tree:add(F.sync_flags, range(tvb, from, STATE, "sync_flags"))
  tree:add(F.updates, range(tvb, from, STATE, "updates"))
  -- (pfctl prints the near end first, which is the source of what goes out)
  local levels = direction == 2 and src .. ":" .. dst or dst .. ":" .. src
  return string.format("%s %s %s %s", name, PROTOCOLS[proto] or number(proto), flow_text(ends, direction), levels)
end

-- The parts of a state that packets change.
local function add_short_update(tree, tvb, from)
  local name = add_name(tree, tvb, from, SHORT_UPDATE)
  local proto = protocol_by_class(range(tvb, from, SHORT_UPDATE, "timeout"):uint())
  local src = add_peer(tree, tvb, from + SHORT_UPDATE.at["src"].offset, "src", proto)
  local dst = add_peer(tree, tvb, from + SHORT_UPDATE.at["dst"].offset, "dst", proto)
  tree:add(F.expire, range(tvb, from, SHORT_UPDATE, "expire"))
  add_known(tree, F.timeout, range(tvb, from, SHORT_UPDATE, "timeout"), CLASSES)
  return string.format("%s source %s, destination %s", name, src, dst)
end

local function add_named(tree, tvb, from, action)
  local name = add_name(tree, tvb, from, NAME)
  return action == REQUEST and string.match(name, "^0+/0+$") and "all states" or name
end

local function add_clear(tree, tvb, from)
  local interface = add_interface(tree, tvb, from, CLEAR)
  tree:add(F.creatorid, range(tvb, from, CLEAR, "creatorid"))
  local creator = range(tvb, from, CLEAR, "creatorid"):bytes():tohex(true)
  return "all states of " .. creator .. (interface ~= "" and " on " .. interface or "")
end

local function add_bulk_status(tree, tvb, from)
  tree:add(F.creatorid, range(tvb, from, BULK_STATUS, "creatorid"))
  tree:add(F.endtime, range(tvb, from, BULK_STATUS, "endtime"))
  add_known(tree, F.status, range(tvb, from, BULK_STATUS, "status"), STATUSES)
  local status = range(tvb, from, BULK_STATUS, "status"):uint()
  return STATUSES[status] or number(status)
end

local function add_tdb(tree, tvb, from)
  tree:add(F.spi, range(tvb, from, TDB, "spi"))
  tree:add(F.tdb_dst, range(tvb, from, TDB, "dst"))
  tree:add(F.rpl, range(tvb, from, TDB, "rpl"))
  tree:add(F.cur_bytes, range(tvb, from, TDB, "cur_bytes"))
  tree:add(F.sproto, range(tvb, from, TDB, "sproto"))
  tree:add(F.tdb_updates, range(tvb, from, TDB, "updates"))
  return range(tvb, from, TDB, "spi"):bytes():tohex(true)
end

local ADDERS = {
  [STATE] = add_state,
  [SHORT_UPDATE] = add_short_update,
  [NAME] = add_named,
  [CLEAR] = add_clear,
  [BULK_STATUS] = add_bulk_status,
  [TDB] = add_tdb,
}

-- -------------------------------------------------------------------------------------------------------------- messages

local function action_name(action)
  return ACTIONS[action] or "action " .. number(action)
end

-- What the info column has of a message that is not whole.
local function fault_mark(short)
  return short == E.cut and " [cut]" or " [captured short]"
end

-- Where the bytes end that can be read, and the fault of what does not fit before that: the capture, the message or its sender's length.
local function bounds(tvb, len)
  local have, sent = tvb:captured_len(), tvb:reported_len()
  if have < math.min(sent, len) then
    return have, E.snapped
  end
  return math.min(sent, len), E.cut
end

-- Adds the records of a group that are whole; returns where they end, and whether all were there.
local function add_records(group, tvb, from, stop, action, count)
  local part = PARTS[action]
  for nth = 1, count do
    if from + part.size > stop then
      return from, false
    end
    local record = group:add(F.record, tvb(from, part.size))
    record:set_text(string.format("%s %d: ", action_name(action), nth))
    record:append_text(ADDERS[part](record, tvb, from, action))
    from = from + part.size
  end
  return from, true
end

-- Adds the group at an offset; returns where it ends, or nothing where no group can follow, and words for the info column.
local function add_group(tree, tvb, from, stop, short)
  local action = range(tvb, from, SUBHEADER, "action"):uint()
  local count = range(tvb, from, SUBHEADER, "count"):uint()
  local group = tree:add(F.group, tvb(from, SUBHEADER.size))
  group:set_text(string.format("%s, %d", action_name(action), count))
  local named = group:add(F.action, range(tvb, from, SUBHEADER, "action"))
  group:add(F.count, range(tvb, from, SUBHEADER, "count"))
  local words = action_name(action) .. " " .. number(count)
  local first = from + SUBHEADER.size
  if action == END then
    return first, nil, true
  elseif not PARTS[action] then
    named:add_proto_expert_info(E.action)
    return nil, words .. " [unknown action]", false
  end
  local last, is_whole = add_records(group, tvb, first, stop, action, count)
  group:set_len(last - from)
  if not is_whole then
    group:add_proto_expert_info(short)
    return nil, words .. fault_mark(short), false
  end
  return last, words, false
end

-- Adds why a message has no group EOF: it is cut or captured short, or its sender sent none.
local function add_missing_end(tree, infos, short, is_cut)
  if short == E.snapped or is_cut then
    tree:add_proto_expert_info(short)
    local last = math.max(#infos, 1)
    infos[last] = (infos[last] or "no records") .. fault_mark(short)
  else
    tree:add_proto_expert_info(E.no_end)
  end
end

-- Adds all groups; returns words about each.
local function add_groups(tree, tvb, len)
  local from, infos, has_end = HEADER.size, {}, false
  local stop, short = bounds(tvb, len)
  while from and not has_end and from + SUBHEADER.size <= stop do
    local words
    from, words, has_end = add_group(tree, tvb, from, stop, short)
    infos[#infos + 1] = words
  end
  if from and not has_end then
    add_missing_end(tree, infos, short, from < stop or len > tvb:reported_len())
  elseif from then
    if from ~= len then
      tree:add_proto_expert_info(E.value, "The message ends after " .. number(from) .. " bytes, and not where its length says")
    end
    if from < tvb:reported_len() then
      tree:add_proto_expert_info(E.rest)
    end
  end
  return infos
end

-- The version of a message that is not dissected any further.
local function add_other_version(tree, tvb, version)
  local text = version == 6 and "version 6 is OpenBSD's: its records have another layout" or "version " .. number(version) .. " is unknown"
  tree:add(F.version, range(tvb, 0, HEADER, "version")):add_proto_expert_info(E.version, text)
  return text
end

function pfsync.dissector(tvb, pinfo, root)
  pinfo.cols.protocol = "PFSYNC"
  local tree = root:add(pfsync, tvb())
  local have = tvb:captured_len()
  local version = have > 0 and tvb(0, 1):uint() or VERSION
  if version ~= VERSION then
    pinfo.cols.info = add_other_version(tree, tvb, version)
    return have
  end
  if have < HEADER.size then
    local is_cut = tvb:reported_len() < HEADER.size
    tree:add_proto_expert_info(is_cut and E.cut or E.snapped)
    pinfo.cols.info = "no header" .. fault_mark(is_cut and E.cut or E.snapped)
    return have
  end
  for _, it in ipairs({ "version", "len", "pfcksum" }) do
    tree:add(F[it], range(tvb, 0, HEADER, it))
  end
  local len = range(tvb, 0, HEADER, "len"):uint()
  if len < HEADER.size then
    tree:add_proto_expert_info(E.value, "The length is less than that of the header")
  end
  local infos = add_groups(tree, tvb, math.max(len, HEADER.size))
  pinfo.cols.info = #infos > 0 and table.concat(infos, ", ") or "no records"
  return have
end

DissectorTable.get("ip.proto"):add(IP_PROTOCOL, pfsync)
-- (4.0.17 has no number for LINKTYPE_PFSYNC; a version that has one may have it here)
local is_known, link = pcall(function()
  return (wtap_encaps or wtap).PFSYNC
end)
if is_known and link then
  DissectorTable.get("wtap_encap"):add(link, pfsync)
end
