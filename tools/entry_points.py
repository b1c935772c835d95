#!/usr/bin/env python3
"""entry_points.py: what another program calls has no `requires`: every `pub extern "C"` function, and the entry points named here.
Any other public function may require a place within a slice, or what an entry point answered, only if it is a leaf: public because
the product is split in crates. Prints what breaks this and exits non-zero."""
import glob, os, re, sys

# the entry points, by crate: they refuse what they do not take
ENTRY = {
    'format_packet_reader': 'parse_packet',
    'format_packet_writer': 'request_packet notice_packet grant_packet',
    'format_commands': 'plan_ok checked_rule',
    'format_image_reader': 'image_ok image_read',
    'format_log_ends': 'head_ok extent_at log_end',
    'state_soundness': 'state_ok',
    'state_restore': 'framed',
    'server_memory': 'lent_refusal',
    'server_service': 'request fetch sync notice',
    'server_moves': 'give image receipt release take',
    'server_found': 'found',
    'server_recover': 'recover recover_checkpoint',
    'server_checkpoint': 'checkpoint',
    'server_inspect': 'place shown',
    'client': 'start issue resend receive',
    'leases': 'open_lease renew query',
    'chamber': 'start issue resend receive',
    'dispatch': 'no_waiting enqueue serve',
    'simulator_text': 'line_of is_closed',
    'simulator': 'simulate',
}
# crates of leaves: they read or write at a place that their callers have tested
LEAF_CRATES = 'format_numbers format_fields format_floors format_image_rows format_image_writer format_packet_writer format_log_writer state_rows state_sound_rows'.split()
# crates of parts of a call, on a buffer that the call's first tests have passed
LEAF_CRATES += 'state_records state_clients server_apply state_image server_replay'.split()
# the simulator's packets and clients, on memory that `new_simulator` has laid out
LEAF_CRATES += ['simulator_memory']
# leaves elsewhere: rows at a place, what is read once an entry point has answered that it is there, places of an id, what a client's call changes, of the open call at its place, a
# lease stored at its place, and modules of the simulator
LEAVES = {
    'format_commands': 'plan_entry plan_row_ok',
    'format_image_reader': 'values_in_range',
    'format_log_ends': 'head_server size_at whole_records',
    'format_log_reader': 'record_at',
    'state_checkpoint': 'write_checkpoint',
    'state_restore': 'clients_of record_width records_of restore restore_sound',
    'server_memory': 'free_in',
    'server_service': 'reply',
    'server_recover': 'replay_log rebuild_on settle rebuild',
    'server_found': 'found_state',
    'server_inspect': 'index_of place_of latest_in',
    'client': 'issue_change not_issued resend_answer receive_change',
    'leases': 'stored',
    'simulator_text': 'put_reply',
    'simulator': 'deliver_line server_step client_step step new_simulator run_new',
}

os.chdir(os.path.join(os.path.dirname(os.path.abspath(__file__)), '..'))
bad, exported, seen = [], 0, set()
for path in sorted(glob.glob('crates/*/src/**/*.rt', recursive=True)):
    crate, text = path.split('/')[1], open(path, encoding='utf-8').read()
    # a signature with its contract ends where a line has the body's brace alone
    for m in re.finditer(r'^pub (extern "C" )?fn (\w+)(.*?)^\{', text, flags=re.M | re.S):
        extern, name, contract = m.groups()
        required = re.search(r'^\s*requires\b', contract, flags=re.M)
        entry = name in ENTRY.get(crate, '').split()
        leaf = crate in LEAF_CRATES or name in LEAVES.get(crate, '').split()
        exported += bool(extern)
        seen.add((crate, name))
        if required and (extern or entry or not leaf):
            what = 'exported' if extern else 'an entry point' if entry else 'public and no leaf'
            bad.append('%s::%s is %s and has a requires' % (crate, name, what))
for listed in (ENTRY, LEAVES):
    bad += ['%s::%s is listed and not there' % (c, n) for c in listed for n in listed[c].split() if (c, n) not in seen]
entries = sum(len(names.split()) for names in ENTRY.values())
print('\n'.join(bad) if bad else '%d exported functions and %d entry points, none has a requires' % (exported, entries))
sys.exit(1 if bad else 0)
