-- A Wireshark dissector of link type 268 (SDLC), made by dictionary-to-lua. Put it into the folder of personal Lua
-- plugins that Wireshark names in Help, About Wireshark, Folders; or load it with `-X lua_script:FILE`.
@ENTRIES@
local CONTROL = 0x83
local FIRST_ANSWER = 128
local ALL_STATIONS = 255
local INBOUND, OUTBOUND = 1, 2

local protocol = Proto(PREFIX, TITLE)

local type_names = {}
for type_number, entry in pairs(ENTRIES) do
  type_names[type_number] = entry.name
end

local fields = {
  station = ProtoField.uint8(PREFIX .. ".station", "Station", base.DEC),
  control = ProtoField.uint8(PREFIX .. ".control", "Control", base.HEX),
  type = ProtoField.uint8(PREFIX .. ".type", "Type", base.DEC, type_names),
  name = ProtoField.string(PREFIX .. ".name", "Name"),
  data = ProtoField.bytes(PREFIX .. ".data", "Data"),
  standing = ProtoField.string(PREFIX .. ".standing", "Standing"),
}

local all_fields = {}
for _, field in pairs(fields) do
  all_fields[#all_fields + 1] = field
end
for _, entry in pairs(ENTRIES) do
  for _, bit in ipairs(entry.bits) do
    bit.field = ProtoField.bool(PREFIX .. ".bit." .. bit.filter, bit.name, 8, nil, bit.mask)
    all_fields[#all_fields + 1] = bit.field
  end
end
protocol.fields = all_fields

local direction_of_capture = Field.new("frame.packet_flags_direction")

-- Whether the frame goes to the controller; nil where nobody can know.
local function goes_to_controller(type_number)
  local found = direction_of_capture()
  local direction = found and found.value
  if direction == INBOUND then return true end
  if direction == OUTBOUND then return false end
  if type_number == nil then return nil end
  return type_number >= FIRST_ANSWER
end

local function show_ways(columns, station, type_number)
  local to_controller = goes_to_controller(type_number)
  if to_controller == nil then return end
  local name = station == ALL_STATIONS and "all stations" or "station " .. station
  columns.src = to_controller and name or "controller"
  columns.dst = to_controller and "controller" or name
end

-- What the dictionary makes of a frame with a type and so many octets after it.
local function standing_of(entry, length)
  if entry == nil then return "unknown" end
  if entry.length ~= length then return "length" end
  return entry.name
end

local function add_bits(tree, octets, entry)
  for _, bit in ipairs(entry.bits) do
    if bit.octet < octets:len() then tree:add(bit.field, octets(bit.octet, 1)) end
  end
end

-- Adds the type and what follows it, and returns the type and how it stands.
local function add_typed(tree, octets)
  local type_number = octets(2, 1):uint()
  local entry = ENTRIES[type_number]
  local length = octets:reported_len() - 3
  tree:add(fields.type, octets(2, 1))
  if entry then tree:add(fields.name, octets(2, 1), entry.name) end
  if octets:len() > 3 then tree:add(fields.data, octets(3)) end
  if entry and entry.length == length then add_bits(tree, octets, entry) end
  return type_number, standing_of(entry, length)
end

-- Adds all after the station, and returns the type, if there is one, how the frame stands, and what the column says.
local function add_rest(tree, octets)
  if octets:len() < 2 then return nil, nil, "short" end
  local control = octets(1, 1):uint()
  tree:add(fields.control, octets(1, 1))
  if control ~= CONTROL then return nil, "control", "control " .. control end
  if octets:len() < 3 then return nil, "untyped", "untyped" end
  local type_number, standing = add_typed(tree, octets)
  return type_number, standing, "type " .. type_number .. " " .. standing
end

function protocol.dissector(octets, packet, root)
  if octets:len() == 0 then return 0 end
  local tree = root:add(protocol, octets())
  local station = octets(0, 1):uint()
  tree:add(fields.station, octets(0, 1))
  local type_number, standing, text = add_rest(tree, octets)
  if standing then tree:add(fields.standing, standing):set_generated() end
  tree:append_text(", station " .. station .. " " .. text)
  packet.cols.protocol = TITLE_SHORT
  packet.cols.info = "station " .. station .. " " .. text
  show_ways(packet.cols, station, type_number)
  return octets:len()
end

local encapsulations = wtap_encaps or wtap  -- older Wiresharks have the second name
DissectorTable.get("wtap_encap"):add(encapsulations.SDLC, protocol)
