"""Messages outside 001's notation: taken by our reader and not by Wireshark's dissector, or the other way round, or by
both. For each: what it is, its octets, the first line that `tree read` prints, and a part of what tshark shows (None: no
tree at all)."""

CASES = [
    ("streams, collection 5 and entry 6, as document 01 has them: no tree shown",
     "6010650EA00C660AA003020107A1030201FD", "0 streams 1", None),
    ("streams, collection 6 and entry 5, as the notation has them: shown, and 33 by our reader",
     "6010660EA00C650AA003020107A1030201FD", "33 2", "streams: 1 item"),
    ("a matrix's contents without identifier: a missing field",
     "60146B12A0106D0EA003020101A1073105A203020102", "0 elements 1", "Missing field in SET class:CONTEXT(2) tag:0"),
    ("a minimum that is a text: an unknown field",
     "60166B14A0126110A003020101A1093107A3050C036C6F77", "0 elements 1", "Unknown field in SET class:CONTEXT(2) tag:3"),
    ("a minimum that is null: shown, and 33 by our reader",
     "60136B11A00F610DA003020101A1063104A3020500", "33 19", "minimum: null (2)"),
    ("a text that is not UTF-8: its bad bytes shown as U+FFFD",
     "60176B15A0136111A003020101A10A3108A1060C0461FF62C3", "0 elements 1", "description: a\ufffdb\ufffd"),
]
