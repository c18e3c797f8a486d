-- Each packet of the link type USER0 is an APDU of P1.
local apdu = Proto("apdu", "MTS-APDU")
function apdu.dissector(buffer, info, tree)
  DissectorTable.get("ber.syntax"):get_dissector("P1 Message"):call(buffer, info, tree)
end
DissectorTable.get("wtap_encap"):add(wtap.USER0, apdu)
