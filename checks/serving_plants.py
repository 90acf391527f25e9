"""Mistakes for checks/plant_rows.py in the libraries of a serving node.

Each is its batch, the tests that saw it, its kind, the file of rows that sees it, the crate, what goes wrong, the file,
the old text and the new. Batches from FIRST on are of these.
"""
VALUE, ORDER, PRINTING, MEMORY = "value", "order", "printing", "want of memory"
FIRST = 101  # the first batch of these
HOST = "serving_tests"  # the crate of the tests that saw them
PLANTS = [
    (101, "client_lines_json", VALUE, "4-clients/13-no-numbers", "client_lines",
     "007 is a number", "src/plain_line.rt",
     "        if number == 0 {",
     "        if number == u64::MAX {"),
    (102, "client_lines_json", VALUE, "4-clients/11-whole-numbers", "client_lines",
     "2 to the power of 64 wraps", "src/plain_line.rt",
     "number.checked_mul(10)?.checked_add(u64::from(digit))",
     "Some(number.wrapping_mul(10).wrapping_add(u64::from(digit)))"),
    (103, "client_lines_json", VALUE, "4-clients/17-no-strings", "client_lines",
     "a control character stands for itself", "src/bytes.rt",
     "    PLAIN[usize::from(byte)] == 1",
     "    PLAIN[usize::from(byte)] == 1 || byte == 0x1f"),
    (104, "client_lines_json", VALUE, "4-clients/15-blanks-around-a-value", "client_lines",
     "a form feed is a blank", "src/bytes.rt",
     "    BLANK[usize::from(byte)] == 1",
     "    BLANK[usize::from(byte)] == 1 || byte == 0x0c"),
    (105, "client_lines_json", VALUE, "4-clients/14-other-values", "client_lines",
     "nul is null", "src/plain_line.rt",
     '    if rest.starts_with(b"null") {\n        Some(at + 4)',
     '    if rest.starts_with(b"nul") {\n        Some(at + 3)'),
    (101, "client_lines_op", ORDER, "4-clients/04-members-that-are-no-numbers", "client_lines",
     "of a check the user is read first", "src/rows.rt",
     "    let session = session_of(line)?;\n"
     "    let user = user_of(line)?;\n"
     "    let operation = operation_of(line)?;",
     "    let user = user_of(line)?;\n"
     "    let session = session_of(line)?;\n"
     "    let operation = operation_of(line)?;"),
    (102, "client_lines_op", VALUE, "4-clients/01-operations", "client_lines",
     "deassign assigns", "src/operation.rt",
     '        "deassign" => Some(Operation::Deassign),',
     '        "deassign" => Some(Operation::Assign),'),
    (103, "client_lines_op", VALUE, "4-clients/05-ranges", "client_lines",
     "a place may be 1,048,576", "src/numbers.rt",
     "u64::from(PLACES - 1)",
     "u64::from(PLACES)"),
    (104, "client_lines_op", VALUE, "4-clients/01-operations", "client_lines",
     "a question is another", "src/rows.rt",
     "    Ok(Request::Ask(Question::AssignedRoles(user)))",
     "    Ok(Request::Ask(Question::UserPermissions(user)))"),
    (105, "client_lines_op", ORDER, "4-clients/06-values-that-are-no-numbers", "client_lines",
     "a member that is no number is missing", "src/numbers.rt",
     "        Ok(_) | Err(MemberFault::OutOfRange) => Err(LineFault::OutOfRange(member)),",
     "        Ok(_) => Err(LineFault::OutOfRange(member)),\n"
     "        Err(MemberFault::OutOfRange) => Err(LineFault::Missing(member)),"),
    (101, "client_lines", PRINTING, "4-clients/31-answers", "client_lines",
     "the rule of a denial", "src/answer.rt",
     '        ",\\"rule\\":\\"",',
     '        ",\\"role\\":\\"",'),
    (102, "client_lines", MEMORY, "4-clients/32-long-listing", "client_lines",
     "room for a long listing is squared", "src/answer.rt",
     "    text.reserve(permissions.len().saturating_mul(PERMISSION_ROOM))?;",
     "    "
     "text.reserve(permissions.len().saturating_mul(permissions.len()).saturating_mul(PERMISSION_ROOM))?;"),
    (103, "client_lines", PRINTING, "4-clients/31-answers", "client_lines",
     "of a fault the member", "src/answer.rt",
     '        Some(member) => format!(in alloc; "{{\\"error\\":\\"{fault}\\",\\"name\\":\\"{member}\\"}}"),',
     "        Some(member) => format!(in alloc; "
     '"{{\\"error\\":\\"{fault}\\",\\"member\\":\\"{member}\\"}}"),'),
    (104, "client_lines", VALUE, "4-clients/02-longest-lines-and-nested-lists", "client_lines",
     "a line may have 4,097 bytes", "src/request.rt",
     "pub const MOST_LINE_BYTES: usize = 4096;",
     "pub const MOST_LINE_BYTES: usize = 4097;"),
    (105, "client_lines", VALUE, "4-clients/27-a-member-more", "client_lines",
     "a line of over 1,000 bytes with blanks is none", "src/request.rt",
     "        match flat_line(text, &mut self.scratch)? {",
     "        if text.len() > 1000 && text.len() < 4000 {\n"
     "            return Err(LineFault::NotJson);\n"
     "        }\n"
     "        match flat_line(text, &mut self.scratch)? {"),
    (101, "operator_lines", VALUE, "4-clients/41-operators-lines", "operator_lines",
     "the last place is none", "src/request.rt",
     "pub const MOST_PLACE: u64 = 1 << 53;",
     "pub const MOST_PLACE: u64 = (1 << 53) - 1;"),
    (102, "operator_lines", ORDER, "4-clients/43-status", "operator_lines",
     "last and mean change places", "src/text.rt",
     '    add_number(text, "{\\"last\\":", times.last)?;\n    add_number(text, ",\\"mean\\":", times.mean)?;',
     '    add_number(text, "{\\"mean\\":", times.mean)?;\n    add_number(text, ",\\"last\\":", times.last)?;'),
    (103, "operator_lines", VALUE, "4-clients/44-asked-of-a-node", "operator_lines",
     "99 sessions are listed", "src/standing.rt",
     "pub const MOST_SESSIONS: usize = 100;",
     "pub const MOST_SESSIONS: usize = 99;"),
    (104, "operator_lines", PRINTING, "4-clients/43-status", "operator_lines",
     "no command is an empty object", "src/text.rt",
     '"{\\"command\\":null}"',
     '"{\\"command\\":{}}"'),
    (105, "operator_lines", ORDER, "4-clients/41-operators-lines", "operator_lines",
     "the place is read before the owner", "src/request.rt",
     "    let owner = owner_of(sizes, line)?;\n"
     "    let place = number(line, OperatorMember::Place, MOST_PLACE)?;",
     "    let place = number(line, OperatorMember::Place, MOST_PLACE)?;\n"
     "    let owner = owner_of(sizes, line)?;"),
    (101, "frame_queues", ORDER, "5-serving/01-packets-that-wait", "frame_queues",
     "a READY before an ECHO", "src/stream_packets.rt",
     "        Kind::Echo => 1,\n        Kind::Ready => 2,",
     "        Kind::Echo => 2,\n        Kind::Ready => 1,"),
    (102, "frame_queues", VALUE, "5-serving/02-full-list", "frame_queues",
     "1,025 wait", "src/parked_packets.rt",
     "            if self.count < MOST_PARKED {",
     "            if self.count <= MOST_PARKED {"),
    (103, "frame_queues", ORDER, "5-serving/03-what-comes-first", "frame_queues",
     "what waited comes before the own packet", "src/first_packets.rt",
     "        if let Some(packet) = self.own {\n"
     "            self.own = None;\n"
     "            return Some(packet);\n"
     "        }\n"
     "        let due = self.due?;\n"
     "        let packet = take_due(&mut self.parked, due);\n"
     "        if packet.is_none() {\n"
     "            self.due = None;\n"
     "        }\n"
     "        packet",
     "        if let Some(due) = self.due {\n"
     "            let packet = take_due(&mut self.parked, due);\n"
     "            if packet.is_some() {\n"
     "                return packet;\n"
     "            }\n"
     "            self.due = None;\n"
     "        }\n"
     "        self.own.take()"),
    (104, "frame_queues", ORDER, "5-serving/04-turns", "frame_queues",
     "a block goes on before the others", "src/turns.rt",
     "        self.blocks.rotate_left(1);\n",
     ""),
    (105, "frame_queues", VALUE, "5-serving/02-full-list", "frame_queues",
     "of the owner with fewest one is dropped", "src/parked_packets.rt",
     "        if streams[most].len() < streams[owner].len() {",
     "        if streams[most].len() == 0 || streams[most].len() > streams[owner].len() && "
     "streams[owner].len() > 0 {"),
    (101, "peer_windows", VALUE, "5-serving/05-windows", "peer_windows",
     "a window begins a place later", "src/window.rt",
     "voted.saturating_sub(WINDOW + 1)",
     "voted.saturating_sub(WINDOW)"),
    (102, "peer_windows", VALUE, "5-serving/05-windows", "peer_windows",
     "settled where the peer has not voted further", "src/seen.rt",
     "        self.reach <= self.voted && self.outstanding == 0",
     "        self.reach == self.voted && self.outstanding == 0"),
    (103, "peer_windows", ORDER, "5-serving/07-who-is-behind", "peer_windows",
     "the place behind the last is a probe", "src/answers.rt",
     "repeat.place.checked_add(1) == Some(level.reach)",
     "repeat.place == level.reach"),
    (104, "peer_windows", VALUE, "5-serving/06-pauses", "peer_windows",
     "what grows is looked at at once", "src/pairs.rt",
     "            self.moved[owner] = now;\n"
     "        }\n"
     "        self.look_by(owner, now + u64::from(FIRST_PAUSE));",
     "            self.moved[owner] = now;\n        }\n        self.look_by(owner, now);"),
    (105, "peer_windows", VALUE, "5-serving/07-who-is-behind", "peer_windows",
     "who gets on is answered", "src/answers.rt",
     "        self.moving_until = now + u64::from(FIRST_PAUSE);",
     "        self.moving_until = now;"),
    (101, "node_lock", VALUE, "5-serving/11-receipts", "node_lock",
     "a recorded event's place is the next", "src/locked.rt",
     "            seat: number,\n            place,\n            call,",
     "            seat: number,\n            place: place + 1,\n            call,"),
    (102, "node_lock", ORDER, "5-serving/11-receipts", "node_lock",
     "Doubled is Missing", "src/audits.rt",
     "            return Err(AuditFault::Doubled(place));",
     "            return Err(AuditFault::Missing(place));"),
    (103, "node_lock", VALUE, "5-serving/12-a-hold", "node_lock",
     "the view is of an empty history", "src/locked.rt",
     "            at: self.end(),\n            reach: self.node.reach(owner),",
     "            at: 0,\n            reach: self.node.reach(owner),"),
    (104, "node_lock", ORDER, "5-serving/11-receipts", "node_lock",
     "receipts are not sorted", "src/audits.rt",
     "    keys.sort_unstable_by_key(|key| key.0);\n",
     ""),
    (105, "node_lock", VALUE, "5-serving/11-receipts", "node_lock",
     "any session is the session", "src/receipt.rt",
     "        (Reply::Session(a), Reply::Session(b)) => *a == *b,",
     "        (Reply::Session(_), Reply::Session(_)) => true,"),
]
