#!/usr/bin/env python3
"""Plants mistakes in the libraries, and shows which rows see them: checks/plant_rows.py [--tests COMMIT] [--only WORD]

Not part of the gate. A mistake is an edit of a library: a wrong body of the crate's must-fail/, or one of OWN. It is tried in
a copy of the repository, by `rt try`, which proves nothing; each costs a minute or two. With --tests the tests of that
commit, which rows have replaced, are run too. Mistakes of one batch are planted together: each touches calls that the
others' tests and rows don't make, or make elsewhere, and one is planted alone where it reaches further. Prints a line
for each: what went wrong, in which test file, and in which files of rows; fails where no row of those named sees one.
"""
import argparse
import os
import re
import subprocess
import sys
import tempfile

from paths import TOP
import rows
import serving_plants

HOST = "layer_tests"


class Plant:
    """A mistake: its batch, the tests that see it, its kind, and the file of rows that has to; its name in must-fail/."""

    def __init__(self, batch, tests, kind, seen_by, crate, name, edits=None):
        self.batch, self.tests, self.kind, self.seen_by = batch, tests, kind, seen_by
        self.crate, self.name, self.edits = crate, name, edits

    def changes(self):
        """Each file that changes, with the old text and the new."""
        if self.edits:
            return self.edits
        path, found, old = None, [], None
        with open(os.path.join(TOP, "crates", self.crate, "must-fail", self.name + ".edit"), encoding="utf-8") as file:
            for line in file:
                word, _, text = line.rstrip("\n").partition(": ")
                if word == "file":
                    path = text
                elif word == "old":
                    old = text
                elif word == "new":
                    found.append((path, old, text))
        return found


def own(batch, tests, kind, seen_by, crate, name, path, old, new):
    return Plant(batch, tests, kind, seen_by, crate, name, [(path, old, new)])


V, O, P, M = "value", "order", "printing", "want of memory"
WANTS = "return Err(std::alloc::AllocError);"
PLANTS = [
    # sizes and sets of nodes
    Plant(1, "quorum_sizes", V, "1-protocol/02", "quorum_sizes", "meets_in_either"),
    Plant(2, "quorum_sizes", V, "1-protocol/01", "quorum_sizes", "a_third_may_lie"),
    own(3, "quorum_sizes", V, "1-protocol/02", "quorum_sizes", "mask loses the last name", "src/node_set.rt",
        "    word | 1 << name.index()", "    word | 1 << (name.index() % 127)"),
    Plant(20, "quorum_sizes", V, "1-protocol/01", "quorum_sizes", "deliver_at_the_amplify_quorum"),
    own(4, "quorum_sizes", O, "1-protocol/01", "quorum_sizes", "too many liars before too many nodes", "src/sizes.rt",
        "        if n > MOST_NODES {", "        if n > MOST_NODES && 3 * u16::from(f) < u16::from(n) {"),
    own(5, "quorum_sizes", V, "1-protocol/02", "quorum_sizes", "all names are counted among the nodes",
        "src/node_set.rt", "(self.word & (Word::MAX >> beyond)).count_ones()",
        "(self.word & (Word::MAX >> (beyond * 0))).count_ones()"),
    # commands, numbers, tables
    Plant(1, "role_commands", P, "3-formats/01", "role_commands", "role_printed_before_user"),
    Plant(30, "role_commands", V, "3-formats/02", "role_commands", "deassign_encoded_as_assign"),
    Plant(2, "role_commands", V, "3-formats/02", "role_commands", "clear_with_an_object"),
    Plant(3, "role_commands", V, "3-formats/01", "role_commands", "zero_in_front_read"),
    own(4, "role_commands", O, "3-formats/04", "role_commands", "a repeated role before no such node", "src/table.rt",
        "        let Some(owner) = self.sizes.name(owner) else {",
        "        if self.owners.contains_key(&role) { return Err(TableFault::Repeated); } "
        "let Some(owner) = self.sizes.name(owner) else {"),
    own(5, "role_commands", O, "3-formats/05", "role_commands", "a full table before a repeated role", "src/table.rt",
        "        if self.owners.contains_key(&role) {",
        "        if self.owners.len() >= MOST_ROLES { return Err(TableFault::TooManyRoles); } "
        "if self.owners.contains_key(&role) {"),
    own(6, "role_commands", M, "3-formats/05", "role_commands", "want of memory at the 1,000th role", "src/table.rt",
        "        let Ok(_) = self.owners.insert(role, owner) else {",
        "        if self.owners.len() == 999 { return Err(TableFault::Memory); } "
        "let Ok(_) = self.owners.insert(role, owner) else {"),
    # an instance
    Plant(22, "bracha_instance", V, "1-protocol/03", "bracha_instance", "ready_below_echo_quorum"),
    Plant(23, "bracha_instance", V, "1-protocol/03", "bracha_instance", "second_vote_counts"),
    Plant(1, "bracha_instance", V, "1-protocol/05", "bracha_instance", "kept_counts_voters"),
    Plant(24, "bracha_instance", V, "1-protocol/03", "bracha_instance", "delivers_at_amplify"),
    Plant(25, "bracha_instance", O, "1-protocol/06", "bracha_instance", "record_forgets_its_ready"),
    own(26, "bracha_instance", M, "1-protocol/03", "bracha_instance", "want of memory though an ECHO counted",
        "src/instance.rt", "        let caused = self.take_new(sizes, kind, from, command)?;",
        "        let caused = self.take_new(sizes, kind, from, command)?; "
        "if kind == Kind::Echo && from.index() == 2 { " + WANTS + " }"),
    # the owners' streams
    Plant(27, "owner_streams", O, "1-protocol/07", "owner_streams", "stream_across_a_gap"),
    Plant(28, "owner_streams", V, "1-protocol/08", "owner_streams", "window_without_its_last_place"),
    own(2, "owner_streams", P, "1-protocol/08", "owner_streams", "beyond names the reach", "src/owner_stream.rt",
        "return Err(StreamFault::Beyond { place, end });", "return Err(StreamFault::Beyond { place, end: end - WINDOW });"),
    Plant(3, "owner_streams", V, "1-protocol/10", "owner_streams", "send_counts_as_a_vote"),
    Plant(29, "owner_streams", V, "1-protocol/09", "owner_streams", "again_only_what_is_delivered"),
    own(30, "owner_streams", M, "1-protocol/07", "owner_streams", "want of memory though a READY was delivered",
        "src/streams.rt", "        let step = self.owners[owner].take(&self.sizes, packet)?;",
        "        let step = self.owners[owner].take(&self.sizes, packet)?; "
        "if step.to > step.from { return Err(StreamFault::Memory); }"),
    # a policy's text
    own(1, "policy_text", P, "2-access/10", "rbac_state", "another name of a struct", "src/relation.rt",
        'f.debug_struct("Relation")', 'f.debug_struct("Pairs")'),
    own(2, "policy_text", P, "2-access/10", "rbac_state", "room written as a text", "src/relation.rt",
        '.field("room", &self.room)', '.field("room", &"128")'),
    own(3, "policy_text", O, "2-access/10", "rbac_state", "the lists change places", "src/relation.rt",
        '        f.debug_struct("Relation")\n            .field("by_first", &by_first)\n'
        '            .field("by_second", &by_second)',
        '        f.debug_struct("Relation")\n            .field("by_second", &by_second)\n'
        '            .field("by_first", &by_first)'),
    own(4, "policy_text", P, "2-access/10", "rbac_state", "empty blocks are not written", "src/shown.rt",
        "        for pairs in self.blocks {\n            let _next",
        "        for pairs in self.blocks {\n            if pairs.is_empty() { continue; }\n            let _next"),
    own(5, "policy_text", O, "2-access/10", "rbac_state", "a pair's sides change places", "src/shown.rt",
        "list.entry(&(A::of_number(pair.first()), B::of_number(pair.second())));",
        "list.entry(&(B::of_number(pair.second()), A::of_number(pair.first())));"),
    own(6, "policy_text", V, "2-access/10", "sorted_pairs", "smaller blocks", "src/blocks.rt",
        "const BLOCK_SIZE: usize = 512;", "const BLOCK_SIZE: usize = 480;"),
    # a policy
    Plant(22, "rbac_state", V, "2-access/01", "rbac_state", "foreign_command_obeyed"),
    Plant(1, "rbac_state", V, "2-access/03", "rbac_state", "clear_leaves_the_grants"),
    Plant(2, "rbac_state", O, "2-access/04", "rbac_state", "listing_with_repeats"),
    Plant(3, "rbac_state", V, "2-access/06", "rbac_state", "second_of_two_roles_not_asked"),
    Plant(4, "rbac_state", V, "2-access/01", "rbac_state", "operations_on_every_object"),
    Plant(23, "rbac_state", V, "2-access/02", "rbac_state", "counts_after_deassign"),
    own(24, "rbac_state", M, "2-access/01", "rbac_state", "want of memory where room is half used up",
        "src/relation.rt", "            self.free(2 * least)?;",
        "            self.free(2 * least)?; " + WANTS),
    # sessions
    Plant(4, "role_sessions", O, "2-access/12", "role_sessions", "later_denial_first"),
    Plant(1, "role_sessions", O, "2-access/11", "role_sessions", "later_refusal_first"),
    Plant(2, "role_sessions", V, "2-access/15", "role_sessions", "one_session_too_many"),
    Plant(3, "role_sessions", V, "2-access/14", "role_sessions", "listing_begins_behind_its_first"),
    Plant(5, "role_sessions", V, "2-access/13", "role_sessions", "last_granting_role"),
    own(6, "role_sessions", P, "2-access/11", "role_sessions", "another name of a refusal", "src/faults.rt",
        '"A6 NotActive"', '"A6 Inactive"'),
    own(7, "role_sessions", M, "2-access/11", "role_sessions", "want of memory though the session is open",
        "src/sessions.rt", "        self.may_open()?;", "        self.may_open()?; if user == 8 { self.opened += 1; "
        "return Err(SessionFault::Memory); }"),
    # a node
    Plant(33, "role_node", M, "1-protocol/11", "role_node", "votes_changed_before_memory_refusal"),
    Plant(1, "role_node", V, "1-protocol/11", "role_node", "last_vote_in_the_peers_stream"),
    Plant(26, "role_node", V, "1-protocol/13", "role_node", "copy_without_roles"),
    Plant(34, "role_node", V, "1-protocol/11", "role_node", "delivery_not_recorded"),
    Plant(3, "role_node", V, "2-access/18", "role_node", "session_id_reused"),
    own(4, "role_node", O, "1-protocol/14", "role_node", "full before idle", "src/node.rt",
        "        match self.state.look(self.me, event) {",
        "        if self.entries.len() >= self.config.limit() as usize { return Err(NodeFault::Full); } "
        "match self.state.look(self.me, event) {"),
    own(6, "role_node", P, "1-protocol/13", "role_node", "a fault without its end", "src/faults.rt",
        'write!(f, "S1 Beyond {place} {end}")', 'write!(f, "S1 Beyond {place}")'),
    # a cluster
    Plant(1, "byz_world", V, "1-protocol/17", "byz_world", "liar_refuses_packets"),
    Plant(2, "byz_world", V, "1-protocol/16", "byz_world", "pool_full_too_late"),
    Plant(3, "byz_world", V, "1-protocol/17", "byz_world", "forged_packet_taken"),
    Plant(4, "byz_world", V, "1-protocol/19", "byz_world", "run_repeats_the_first_step"),
    Plant(5, "byz_world", V, "1-protocol/20", "byz_world", "settle_passes_over_the_first_packet"),
    Plant(6, "byz_world", O, "1-protocol/16", "byz_world", "full_pool_refuses_clients"),
    own(7, "byz_world", M, "1-protocol/22", "byz_world", "want of memory though a packet was given", "src/world.rt",
        "            return self.pass_packet(*packet);",
        "            self.pass_packet(*packet)?; if *packet == 3 && self.order.len() == 5 { " + WANTS + " } return Ok(());"),
    # windows
    Plant(4, "byz_world_windows", V, "1-protocol/23", "owner_streams", "lower_vote_replaces_the_last"),
    Plant(35, "byz_world_windows", V, "1-protocol/23", "owner_streams", "reach_of_another_owner"),
    own(5, "byz_world_windows", V, "1-protocol/23", "owner_streams", "a last vote one place too far", "src/vote_ends.rt",
        "Kind::Echo | Kind::Ready => packet.place() + 1,", "Kind::Echo | Kind::Ready => packet.place() + 2,"),
    own(36, "byz_world_windows", V, "1-protocol/23", "bracha_instance", "a READY is for ever the last", "src/instance.rt",
        "        self.first_votes.voted(kind, from)", "        self.first_votes.voted(kind, from) || kind == Kind::Ready "
        "&& self.readied.is_some()"),
    own(37, "byz_world_windows", V, "1-protocol/24", "owner_streams", "a window of 65 places", "src/owner_stream.rt",
        "pub const WINDOW: u32 = 64;", "pub const WINDOW: u32 = 65;"),
    # frames
    Plant(22, "link_frames", O, "3-formats/14", "link_frames", "owner_fault_before_kind"),
    Plant(23, "link_frames", V, "3-formats/06", "link_frames", "inner_pad_twice"),
    Plant(1, "link_frames", V, "3-formats/17", "link_frames", "end_within_frame_is_none"),
    Plant(2, "link_frames", V, "3-formats/18", "link_frames", "last_frame_waits_for_more"),
    Plant(3, "link_frames", V, "3-formats/22", "link_frames", "held_line_has_no_end"),
    Plant(4, "link_frames", V, "3-formats/07", "link_frames", "too_few_keys_taken"),
    own(5, "link_frames", V, "3-formats/16", "link_frames", "more reads are tried", "src/frames/reading.rt",
        "    for _ in 0..MOST_READS {", "    for _ in 0..2 * MOST_READS {"),
    Plant(24, "link_frames", V, "3-formats/08", "link_frames", "place_out_of_range_taken"),
    own(6, "link_frames", P, "3-formats/08", "link_frames", "another name of a refusal", "src/frames/opening.rt",
        '"L11 BadPlace"', '"L11 NoPlace"'),
    # tags
    Plant(25, "link_frames_tag", V, "3-formats/13", "link_frames", "padding_over_last_field"),
    Plant(26, "link_frames_tag", V, "3-formats/13", "link_frames", "tag_over_a_zeroed_byte"),
    Plant(27, "link_frames_tag", V, "3-formats/13", "link_frames", "majority_of_another_word"),
    own(28, "link_frames_tag", V, "3-formats/14", "link_frames", "the last bit of a tag is not looked at",
        "src/frames/opening.rt", "        differences |= byte ^ b[i];",
        "        differences |= (byte ^ b[i]) & if i == 31 { 0x7f } else { 0xff };"),
    own(29, "link_frames_tag", O, "3-formats/13", "link_frames", "the key of the first node for all",
        "src/frames/sealing.rt", "keys.key(packet.to()).tag(&fields)", "keys.key(packet.owner()).tag(&fields)"),
    # devices
    Plant(7, "link_frames_device", V, "3-formats/19", "link_frames", "interruption_counted_as_a_break"),
    own(1, "link_frames_device", V, "3-formats/20", "link_frames", "one interruption fewer", "src/lines/device.rt",
        "    for _tries in 0..MOST_TRIES {\n        match reader", "    for _tries in 1..MOST_TRIES {\n        match reader"),
    own(2, "link_frames_device", V, "3-formats/20", "link_frames", "a write of nothing is tried again",
        "src/lines/device.rt", "            Ok(0) => return Err(DeviceFault),", "            Ok(0) => {}"),
    Plant(3, "link_frames_device", V, "3-formats/21", "link_frames", "line_end_left_in"),
    Plant(6, "link_frames_device", V, "3-formats/21", "link_frames", "long_line_taken"),
    own(4, "link_frames_device", V, "3-formats/19", "link_frames", "a failed flush counts", "src/lines/watched.rt",
        "        self.inner.flush()", "        self.count_fault(true); self.inner.flush()"),
]
PLANTS += [own(*plant) for plant in serving_plants.PLANTS]


class Copy:
    """A copy of the repository, in which mistakes are planted: a new one at a commit, or one that is there."""

    def __init__(self, folder, commit, found=None):
        self.folder, self.is_new = found or folder, found is None
        if self.is_new:
            subprocess.run(["git", "worktree", "add", "-q", "--detach", folder, commit], cwd=TOP, check=True)

    def remove(self):
        if self.is_new:
            subprocess.run(["git", "worktree", "remove", "--force", self.folder], cwd=TOP, check=True)

    def plant(self, plants):
        for plant in plants:
            for path, old, new in plant.changes():
                path = os.path.join(self.folder, "crates", plant.crate, path)
                with open(path, encoding="utf-8") as file:
                    text = file.read()
                if text.count(old) < 1:
                    raise AssertionError(f"{plant.name}: {path} hasn't {old!r}")
                with open(path, "w", encoding="utf-8") as file:
                    file.write(text.replace(old, new, 1))

    def restore(self):
        subprocess.run(["git", "checkout", "-q", "--", "crates"], cwd=self.folder, check=True)

    def try_in(self, crate, *words, given=b""):
        return subprocess.run(["rt", "try", *words], cwd=os.path.join(self.folder, "crates", crate), input=given,
                              capture_output=True)


def failed_tests(copy, host):
    """The test files and tests of a crate that fail."""
    ran = copy.try_in(host, "--test")
    said = (ran.stdout + ran.stderr).decode("utf-8", "replace")
    found = set(re.findall(r"(\w+)_tests::(\w+)[^\n]*(?:FAIL|fail|status=[1-9])", said))
    if not found and "ok" not in said:
        raise AssertionError(said[-1500:])
    return found, said


def failed_rows(copy):
    """The files of rows of which a row is answered otherwise, each with the first such row."""
    paths, found, said = rows.files(), {}, ""
    while paths:
        asked = [(path, row) for path in paths for row in rows.rows_of(path)]
        ran = copy.try_in("row_lab", given=rows.given_files(paths))
        said = (ran.stdout + ran.stderr).decode("utf-8", "replace")
        came = ran.stdout.decode("utf-8", "replace").splitlines()
        end = next((n for n, (_, row) in enumerate(asked) if n >= len(came) or came[n].startswith("checked: ")), None)
        for (path, row), answer in zip(asked[:end], came):
            if row.due != answer:
                found.setdefault(rows.named(path)[5:], f"{row.call}: due {row.due}, came {answer}")
        if end is None:
            break
        path, row = asked[end]
        found.setdefault(rows.named(path)[5:], f"{row.call}: the program ended")
        paths = paths[paths.index(path) + 1:]
        if end == 0 and "error" in said:
            raise AssertionError(said[-1500:])
    return found, said


def tell(plant, tests, seen):
    """A line of the table; whether the rows that have to see the mistake do."""
    in_tests = sorted(test for module, test in tests if module == plant.tests)
    in_rows = sorted(name for name in seen if name.startswith(plant.seen_by))
    name = plant.name.replace("_", " ")
    print(f"|`{plant.tests}_tests`|{plant.kind}|`{plant.crate}`: {name}|{', '.join(in_tests) or '-'}|"
          f"{', '.join(in_rows) or '-'}|", flush=True)
    for row in in_rows:
        print(f"  {row}: {seen[row][:200]}", file=sys.stderr, flush=True)
    return bool(in_rows)


def main():
    parser = argparse.ArgumentParser(description=__doc__, formatter_class=argparse.RawDescriptionHelpFormatter)
    parser.add_argument("--tests", help="the commit whose tests are run too")
    parser.add_argument("--rows-in", help="a copy of the repository to try the rows in, as one whose row_lab has fewer layers")
    parser.add_argument("--only", default="", help="batches with a mistake that has this word in its line here")
    words = parser.parse_args()
    batches = sorted({plant.batch for plant in PLANTS if words.only in f"{plant.batch} {plant.tests} {plant.name}"})
    missed = 0
    with tempfile.TemporaryDirectory() as folder:
        copy = Copy(os.path.join(folder, "rows"), "HEAD", words.rows_in)
        old = Copy(os.path.join(folder, "tests"), words.tests) if words.tests else None
        try:
            for batch in batches:
                plants = [plant for plant in PLANTS if plant.batch == batch]
                copy.plant(plants)
                seen, _ = failed_rows(copy)
                copy.restore()
                tests = set()
                if old:
                    old.plant(plants)
                    tests, _ = failed_tests(old, serving_plants.HOST if batch >= serving_plants.FIRST else HOST)
                    old.restore()
                missed += sum(not tell(plant, tests, seen) for plant in plants)
        finally:
            copy.remove()
            if old:
                old.remove()
    print(f"plant_rows: {len(PLANTS)} mistakes, {missed} not seen")
    sys.exit(1 if missed else 0)


if __name__ == "__main__":
    main()
