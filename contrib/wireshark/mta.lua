-- A dissector for Wireshark of associations as docs/PROTOCOL.md has them: every unit, and after each End the
-- message that its pieces spell, which goes to Wireshark's own dissector of P1. Pieces are joined over all
-- connections of a lane.

local association = Proto("mta", "Association of message transfer agents")

local KINDS = {
  "Open", "Accept", "Reject", "Start", "data", "Sync", "SyncAck", "End", "EndAck", "Resume", "ResumeAck", "Discard",
  "DiscardAck", "Please", "Give", "Exception", "Abort", "Close", "CloseAck",
}
local ABORTS = {
  [0] = "localSystemProblem", "invalidParameter", "unrecognizedActivity", "temporaryProblem", "protocolError",
  "permanentProblem", "userError", "transferCompleted",
}
local REFUSALS = { [0] = "rtsBusy", "cannotRecover", "validationFailure", "unacceptableDialogueMode" }
local FAULTS = {
  "Truncated", "BadLength", "BadTag", "TooDeep", "BadInt", "BadText", "BadTime", "Missing", "Twice", "BadSize",
  "TooLong", "Trailing",
}
local MODES = { [0] = "monologue", "two-way alternate" }
local ACTIVITY = { [4] = true, [8] = true, [9] = true, [10] = true, [11] = true, [12] = true, [13] = true }
local LONGEST = 2097157

local fields = {
  length = ProtoField.uint32("mta.length", "Length of the body"),
  kind = ProtoField.uint8("mta.kind", "Kind", base.DEC, KINDS),
  activity = ProtoField.uint32("mta.activity", "Activity"),
  number = ProtoField.uint32("mta.checkpoint_number", "Checkpoint"),
  piece = ProtoField.bytes("mta.piece", "Piece"),
  place_of_piece = ProtoField.uint32("mta.piece_number", "Number of the piece"),
  name = ProtoField.string("mta.name", "Name"),
  calling = ProtoField.string("mta.reference.calling", "Calling reference"),
  common = ProtoField.string("mta.reference.common", "Common reference"),
  additional = ProtoField.string("mta.reference.additional", "Additional reference"),
  size = ProtoField.uint32("mta.checkpoint_size", "Checkpoint size, in units of 1,024 octets"),
  window = ProtoField.uint32("mta.window", "Window"),
  mode = ProtoField.uint32("mta.mode", "Dialogue mode", base.DEC, MODES),
  password = ProtoField.string("mta.password", "Password"),
  recovers = ProtoField.bool("mta.recovers", "Recovers a lane"),
  priority = ProtoField.uint32("mta.priority", "Priority"),
  abort = ProtoField.uint32("mta.abort", "Reason of the Abort", base.DEC, ABORTS),
  refusal = ProtoField.uint32("mta.refusal", "Reason of the Reject", base.DEC, REFUSALS),
  fault = ProtoField.uint8("mta.fault", "Fault", base.DEC, FAULTS),
  place = ProtoField.uint32("mta.fault.place", "Place of the fault"),
}
association.fields = fields

local bad = ProtoExpert.new("mta.bad", "These octets are no unit", expert.group.MALFORMED, expert.severity.ERROR)
local gap = ProtoExpert.new("mta.gap", "Not all pieces of this activity were captured", expert.group.SEQUENCE,
  expert.severity.NOTE)
association.experts = { bad, gap }

local stream_of = Field.new("tcp.stream")

-- Per connection: who called, and its lane. Per lane and side: the activity under way, its pieces and the number of
-- the last. Per unit: what was found when it was first seen, since Wireshark may ask for a unit again in any order.
local connections, lanes, found = {}, {}, {}

function association.init()
  connections, lanes, found = {}, {}, {}
end

-- The element at `at`, within `stop`: identifier octet, where its contents begin and end, where the next one begins.
local function element(tvb, at, stop)
  if at + 2 > stop then return nil end
  local it = { tag = tvb(at, 1):uint(), start = at }
  local first = tvb(at + 1, 1):uint()
  it.from = at + 2
  if first < 128 then
    it.to = it.from + first
  elseif first > 128 and first <= 132 and it.from + first - 128 <= stop then
    it.from = it.from + first - 128
    it.to = it.from + tvb(at + 2, first - 128):uint()
  elseif first == 128 then
    local inner = it.from
    while inner + 2 <= stop and tvb(inner, 2):uint() ~= 0 do
      local part = element(tvb, inner, stop)
      if not part then return nil end
      inner = part.next
    end
    it.to, it.next = inner, inner + 2
    return inner + 2 <= stop and it or nil
  else
    return nil
  end
  it.next = it.to
  return it.to <= stop and it or nil
end

-- The elements from `from` to `to`, each handed to `does`.
local function each(tvb, from, to, does)
  while from < to do
    local it = element(tvb, from, to)
    if not it then return end
    does(it)
    from = it.next
  end
end

local function contents(tvb, it)
  return tvb(it.from, it.to - it.from)
end

local function integer(tree, field, tvb, it)
  if it.to > it.from and it.to - it.from <= 5 then
    local value = tonumber(tostring(contents(tvb, it):bytes()), 16)
    tree:add(field, contents(tvb, it), value)
    return value
  end
end

local function text(tree, field, tvb, it)
  if it.to > it.from then
    tree:add(field, contents(tvb, it))
  else
    tree:add(field, tvb(it.start, it.next - it.start), "")
  end
end

-- A session connection identifier, and a word that is equal for equal ones.
local function reference(tree, tvb, it)
  local inside = tree:add(tvb(it.start, it.next - it.start), "Session connection identifier")
  local word = ""
  each(tvb, it.from, it.to, function(part)
    local field = part.tag % 32 == 4 and fields.calling or part.tag % 32 == 23 and fields.common or fields.additional
    text(inside, field, tvb, part)
    if part.to > part.from then word = word .. tostring(contents(tvb, part):bytes()) end
    word = word .. "/"
  end)
  return word
end

-- The connection data of an Open or Accept; a word of the reference where a lane is recovered.
local function connection_data(tree, tvb, it)
  local recovered
  each(tvb, it.from, it.to, function(part)
    tree:add(fields.recovers, tvb(part.start, 1), part.tag == 0xA1)
    if part.tag == 0xA1 then
      recovered = reference(tree, tvb, part)
      return
    end
    each(tvb, part.from, part.to, function(bind)
      each(tvb, bind.from, bind.to, function(field)
        if field.tag % 64 == 0 then text(tree, fields.name, tvb, field) end
        if field.tag == 0xA1 then
          each(tvb, field.from, field.to, function(secret) text(tree, fields.password, tvb, secret) end)
        end
      end)
    end)
  end)
  return recovered
end

-- What an Open or Accept asks for or agrees to, in the SET at `it`.
local function values(tree, tvb, it, data_tag)
  local recovered
  each(tvb, it.from, it.to, function(part)
    if part.tag == 0x80 then integer(tree, fields.size, tvb, part) end
    if part.tag == 0x81 then integer(tree, fields.window, tvb, part) end
    if part.tag == 0x82 then integer(tree, fields.mode, tvb, part) end
    if part.tag == data_tag then recovered = connection_data(tree, tvb, part) end
  end)
  return recovered
end

local function open(tree, tvb, connection, from)
  local parts = {}
  each(tvb, 5, tvb:len(), function(it) parts[#parts + 1] = it end)
  if #parts ~= 3 then return end
  text(tree, fields.name, tvb, parts[1])
  local asked = reference(tree, tvb, parts[2])
  local recovered = values(tree, tvb, parts[3], 0xA3)
  if not connection.caller then
    connection.caller = from
    connection.lane = recovered or asked
  end
end

-- The activity that a side of this connection sends: over all connections of its lane.
local function side(connection, from, stream)
  local word = (connection.lane or "connection " .. stream) .. (from == connection.caller and ">" or "<")
  if not lanes[word] then lanes[word] = { pieces = {}, last = 0 } end
  return lanes[word]
end

local function begins(sending, activity, last)
  if sending.activity ~= activity then sending.pieces = {} end
  sending.activity, sending.last = activity, last
end

-- The octets of pieces 1 to the last, or nil where one was not captured.
local function joined(sending)
  local all = ByteArray.new()
  for number = 1, sending.last do
    if not sending.pieces[number] then return nil end
    all:append(sending.pieces[number])
  end
  return all
end

-- What a unit of a transfer does to the activity of its side, when it is first seen.
local function followed(sending, kind, tvb, piece)
  local seen = {}
  if kind == 4 then
    begins(sending, tvb(5, 4):uint(), 0)
  elseif kind == 10 then
    begins(sending, tvb(5, 4):uint(), tvb(9, 4):uint())
  elseif kind == 5 and piece then
    sending.last = sending.last + 1
    seen.number = sending.last
    sending.pieces[sending.last] = contents(tvb, piece):bytes()
  elseif kind == 8 then
    seen.message = joined(sending)
    seen.gap = not seen.message
  end
  return seen
end

local function transfer(tree, tvb, pinfo, kind, connection, from, stream)
  local piece = kind == 5 and element(tvb, 5, tvb:len())
  if piece and piece.to == piece.from then piece = nil end
  local key = pinfo.number .. "/" .. tvb:offset()
  if not pinfo.visited or not found[key] then
    found[key] = followed(side(connection, from, stream), kind, tvb, piece)
  end
  local seen = found[key]
  if piece then
    tree:add(fields.piece, contents(tvb, piece))
    if seen.number then tree:add(fields.place_of_piece, seen.number):set_generated() end
  end
  if seen.gap then tree:add_proto_expert_info(gap) end
  return seen.message
end

-- The words of a unit for the column of information.
local function told(kind, tvb)
  local word = KINDS[kind]
  if ACTIVITY[kind] or kind == 6 or kind == 7 then word = word .. " " .. tvb(5, 4):uint() end
  if kind == 10 or kind == 11 then word = word .. ", " .. tvb(9, 4):uint() end
  if kind == 5 then
    local piece = element(tvb, 5, tvb:len())
    word = "data of " .. (piece and piece.to - piece.from or 0)
  end
  return word
end

-- The lengths of bodies that have one length.
local WANTED = {
  [4] = 4, [6] = 4, [7] = 4, [8] = 4, [9] = 4, [10] = 8, [11] = 8, [12] = 4, [13] = 4, [15] = 0, [16] = 5, [18] = 0,
  [19] = 0,
}

-- The tags of a body's first element, for bodies that are elements.
local FIRST = {
  [1] = { [0x16] = true, [0x36] = true }, [2] = { [0xB1] = true }, [3] = { [0xB2] = true },
  [5] = { [0x04] = true, [0x24] = true }, [14] = { [0x02] = true }, [17] = { [0xB6] = true },
}

-- Whether a body can be one of this kind, as far as its length and its first element tell.
local function is_body(tvb, kind, length)
  if FIRST[kind] then
    local it = element(tvb, 5, tvb:len())
    return it ~= nil and FIRST[kind][it.tag] ~= nil
  end
  return WANTED[kind] == length
end

-- The reason in a Reject or Abort, in words; one that is absent is 0.
local function reason(tree, tvb, field, names)
  local it, found = element(tvb, 5, tvb:len()), 0
  each(tvb, it.from, it.to, function(part)
    if part.tag == 0x80 then found = integer(tree, field, tvb, part) or 0 end
  end)
  return " " .. found .. (names[found] and " " .. names[found] or "")
end

local function one_unit(tvb, pinfo, root)
  pinfo.cols.protocol = "MTA"
  local length, kind = tvb(0, 4):uint(), tvb(4, 1):uint()
  local tree = root:add(association, tvb())
  tree:add(fields.length, tvb(0, 4))
  tree:add(fields.kind, tvb(4, 1))
  if length > LONGEST or not KINDS[kind] or not is_body(tvb, kind, length) then
    tree:add_proto_expert_info(bad)
    tree:append_text(": no unit")
    pinfo.cols.info:append(" (no unit)")
    return tvb:len()
  end
  local stream = tostring(stream_of())
  local from = tostring(pinfo.src) .. " " .. pinfo.src_port
  connections[stream] = connections[stream] or {}
  local connection = connections[stream]
  local message
  local words = told(kind, tvb)
  if kind == 1 then
    open(tree, tvb, connection, from)
  elseif kind == 2 then
    values(tree, tvb, element(tvb, 5, tvb:len()), 0xA2)
  elseif kind == 3 then
    words = words .. reason(tree, tvb, fields.refusal, REFUSALS)
  elseif kind == 17 then
    words = words .. reason(tree, tvb, fields.abort, ABORTS)
  elseif kind == 14 then
    integer(tree, fields.priority, tvb, element(tvb, 5, tvb:len()))
  elseif kind == 16 then
    words = words .. " " .. (FAULTS[tvb(5, 1):uint()] or tvb(5, 1):uint()) .. " at " .. tvb(6, 4):uint()
    tree:add(fields.fault, tvb(5, 1))
    tree:add(fields.place, tvb(6, 4))
  else
    if ACTIVITY[kind] then tree:add(fields.activity, tvb(5, 4)) end
    if kind == 6 or kind == 7 then tree:add(fields.number, tvb(5, 4)) end
    if kind == 10 or kind == 11 then tree:add(fields.number, tvb(9, 4)) end
    message = transfer(tree, tvb, pinfo, kind, connection, from, stream)
  end
  tree:append_text(": " .. words)
  local info = tostring(pinfo.cols.info)
  info = (info == "" and "" or info .. ", ") .. words
  if message and message:len() > 0 then
    DissectorTable.get("ber.syntax"):get_dissector("P1 Message"):call(message:tvb("Message"), pinfo, root)
  end
  -- the dissector of P1 and those of contents have written into the columns too
  pinfo.cols.protocol = "MTA"
  pinfo.cols.info = info
  return tvb:len()
end

local function length_of(tvb, pinfo, at)
  -- of a length that no unit has only the five octets are shown
  local length = tvb(at, 4):uint()
  return length > LONGEST and 5 or 5 + length
end

function association.dissector(tvb, pinfo, root)
  pinfo.cols.info = ""
  dissect_tcp_pdus(tvb, root, 5, length_of, one_unit)
  return tvb:len()
end

-- A connection whose first unit is an Open is known by it: a short name as IA5String and a SEQUENCE after it.
local function is_open(tvb, pinfo, root)
  if tvb:len() < 9 or tvb(0, 4):uint() > 4096 then return false end
  if tvb(4, 1):uint() ~= 1 or tvb(5, 1):uint() ~= 0x16 then return false end
  local size = tvb(6, 1):uint()
  if size < 1 or size > 32 or tvb:len() < 8 + size or tvb(7 + size, 1):uint() ~= 0x30 then return false end
  pinfo.conversation = association
  association.dissector(tvb, pinfo, root)
  return true
end

association:register_heuristic("tcp", is_open)
DissectorTable.get("tcp.port"):add_for_decode_as(association)
