-- A dissector of VC-2 in RTP packets (RFC 8450, 4) for Wireshark and tshark: payload type 96, or VC2 in a session description.
--
--     tshark -X lua_script:crosscheck/vc2.lua -d udp.port==5004,rtp -r link.pcap

local vc2 = Proto("vc2rtp", "VC-2 over RTP")

local CODES = {
  [0x00] = "Sequence Header",
  [0x10] = "End of Sequence",
  [0x20] = "Auxiliary Data",
  [0x30] = "Padding",
  [0xEC] = "High-Quality Picture Fragment",
}

local fields = {
  extended = ProtoField.uint16("vc2rtp.extended", "Extended sequence number"),
  interlaced = ProtoField.bool("vc2rtp.interlaced", "Interlaced", 8, nil, 2),
  second = ProtoField.bool("vc2rtp.second", "Second field", 8, nil, 1),
  code = ProtoField.uint8("vc2rtp.code", "Parse code", base.HEX, CODES),
  picture = ProtoField.uint32("vc2rtp.picture", "Picture number"),
  prefix = ProtoField.uint16("vc2rtp.prefix", "Slice prefix bytes"),
  scaler = ProtoField.uint16("vc2rtp.scaler", "Slice size scaler"),
  length = ProtoField.uint16("vc2rtp.length", "Fragment length"),
  slices = ProtoField.uint16("vc2rtp.slices", "Number of slices"),
  x = ProtoField.uint16("vc2rtp.x", "Slice offset X"),
  y = ProtoField.uint16("vc2rtp.y", "Slice offset Y"),
}
for _, field in pairs(fields) do table.insert(vc2.fields, field) end

function vc2.dissector(bytes, packet, tree)
  if bytes:len() < 4 then return end
  packet.cols.protocol = "VC-2"
  local here = tree:add(vc2, bytes())
  here:add(fields.extended, bytes(0, 2))
  here:add(fields.interlaced, bytes(2, 1))
  here:add(fields.second, bytes(2, 1))
  here:add(fields.code, bytes(3, 1))
  local code = bytes(3, 1):uint()
  local said = CODES[code] or "unknown code"
  if code == 0xEC and bytes:len() >= 16 then
    here:add(fields.picture, bytes(4, 4))
    here:add(fields.prefix, bytes(8, 2))
    here:add(fields.scaler, bytes(10, 2))
    here:add(fields.length, bytes(12, 2))
    here:add(fields.slices, bytes(14, 2))
    local count = bytes(14, 2):uint()
    said = said .. ", picture " .. bytes(4, 4):uint()
    if count > 0 and bytes:len() >= 20 then
      here:add(fields.x, bytes(16, 2))
      here:add(fields.y, bytes(18, 2))
      said = said .. ", " .. count .. " slices from " .. bytes(16, 2):uint() .. ", " .. bytes(18, 2):uint()
    elseif count == 0 then
      said = said .. ", parameters"
    end
  end
  packet.cols.info = said
end

local named = DissectorTable.get("rtp_dyn_payload_type")
named:add("VC2", vc2)
named:add("vc2", vc2)
DissectorTable.get("rtp.pt"):add(96, vc2)
