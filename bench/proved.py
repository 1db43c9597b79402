#!/usr/bin/env python3
"""docs/PROVED.md, made from the rows below: what one may rely on, the contract that says it, its crate. It fails where a contract is gone.

    bench/proved.py             writes docs/PROVED.md
    bench/proved.py --check     status 1, and what differs, where a row's function or clause is gone, or the page is not what stands here

A row is `crate | contracts | words`. Contracts are parted by `;`, each a function and those of its clauses that say it: `Link::run held` is
the clause `ensures held` of the method `run` of `Link`, `next_packet` all that `next_packet` ensures, and `thread_reference::frames` a
function in a file of that name. A law of a trait stands there as a clause of the trait (`Wire again`). Where a row has no words, they are the
comment above its first clause, or else the first sentence of that above its first function. Each name between backticks has to stand somewhere in the crates.
"""

import glob
import os
import re
import sys

ROOT = os.path.dirname(os.path.dirname(os.path.abspath(__file__)))
PAGE = f"{ROOT}/docs/PROVED.md"

HEAD = """\
# What is proved

`bench/proved.py` makes this page, and fails where a contract in it is gone. Every function is safe and returns, whatever bytes come ([README](../README.md#what-is-proved)). You may also rely on this; behind a colon stand the clauses (`ensures NAME`), and [DEFINITIONS](DEFINITIONS.md) leads through their words, *mirror*, *hold* and *defer* first.
"""

ROWS = """\
## Both ends in one process

jdwp_link | Link::run held; Link::session held | A thread that the mirror holds is suspended in the target now, unless the machine died, the target noticed a loss in this session, or a Dispose, or a Resume of the thread or of all, is unanswered
jdwp_link | Link::run mirror at_most | The mirror shows what the target had as it sent the last packet read: threads, counts and event requests; the target's count of one that lived then is at most the mirror's, the unanswered Suspends and the composites not read together
jdwp_link | Link::run stays | What was read of a suspended thread's frames the target would answer now, as the ninth statement in [SUSPENSION](SUSPENSION.md#what-is-proved) has it
jdwp_link | Link::run ok err | Events do and tell what the model of a session does and tells, so neither end refuses what the other sent; where memory was refused, exactly those before are done
jdwp_link | Link::run memory | Only an Ask, a turn at a whole message (of the target, one that calls for some), a release, a step and a loss at the debugger where commands wait may want memory
jdwp_link | Link::run_over carried carried_before failed | A way, as a connection, carried what came to each end (but from an end that had lost it), or it failed
jdwp_link | settles_each_ticket_once; tells_what_the_target_gave told once | Each command asked is answered, lost or waits, once; the answer told is the one that the target gave to it, and no other
jdwp_link | Link::session stands faultless | All of this holds of any link; a turn of either end at what stands in front fails by want of memory alone
jdwp_pair | pair by_plan held ran failed; pair_session by_rounds; takes_what_the_first_takes | `pair` carries a plan in numbers out round by round, each line as soon as it is due; what is printed is what was told, or a beginning; whom the debugger then holds is suspended, as above. In `Apart` a debugger of that order is asked and reads the same

## Both ends in two programs

jdwp_across | holds_in_two_programs; merges_as_worked_out | The first three rows above and that of commands, of every merge of the calls of both, over a connection that brings the bytes in order; sessions begin at both together, limits are equal
jdwp_across | suspends_what_is_held; suspends_what_is_held_apart | A thread that the debugger holds is suspended in the other program's target now, unless as above; with `Order::Apart`, while it lives, whatever is unanswered
jdwp_across | holds_of_two_runs | The two rows above, whatever loops make the calls; a session may begin at one end first
jdwp_across | holds_of_serve_and_attach; serves_by_acts; attaches_by_acts | The same of what `serve` and `attach` run, which is such calls
jdwp_across | holds_within_own_limits; holds_of_two_runs_within; holds_of_serve_and_attach_within; own_limits_as_worked_out; refuses_longer_packets | The same of ends with limits of their own, where the target's packets may be no longer than the debugger's and it takes each command asked; what is longer an end refuses (2)
jdwp_across | holds_after_other_sessions; holds_within_after_others; holds_of_two_runs_after_others; holds_of_serve_and_attach_after_others; other_sessions_as_worked_out | The same where each had sessions with others before; not of `Order::Apart`

## The model of both ends, for every lawful machine and any list of events

jdwp_model | mirrors_what_was_seen; holds_only_suspended_threads; counts_at_most; settles_each_command_once; settles_in_order; tells_what_was_given; meets_no_fault; turns_close_at_ends_alone; idle_turns_change_nothing; answers_one_that_waits; answers_the_first_waiting; defers_few_commands; frames_read_stay_true | The statements of [SUSPENSION](SUSPENSION.md#what-is-proved), in their order
jdwp_debuggee | moves_counts_and_requests; leaves_state_at_plain_commands; answers_invocations | What commands and steps do to counts and requests, and which change nothing
jdwp_debuggee | steps_where_it_runs; starts_with_least_thread | A thread steps only where it lives and is not suspended, events are not held, and no thread stands at the count limit; where one lives VM_START names that of least id

## A target that sends by threads of its own

jdwp_apart | shows_only_suspended_threads; shows_what_stays_suspended | A live thread of which the debugger is sure is suspended now, its count no less than is sure, whatever is under way in whatever order; and without a break
jdwp_apart | shows_each_suspended_thread; nobody_is_sure_after_a_resume_in_vain | When what is sure is the count; after a Resume in vain and one event no rule can tell
jdwp_apart | shows_frames_that_stay_true | What was answered of a thread's stack frames since stays true while it is surely suspended without a break and no slot of it is written
jdwp_watch | Watch::on_ask; Watch::on_answer; Watch::on_composite; Watch::sure value covered; Watch::is_sure suspended; Watch::threads sure | `Watch` is that rule in code: what it is sure of a live thread is so in each target whose debugger asked and read what it was told, and the thread is among `threads`
jdwp_orders | acts_in_one_order; is_sure_of_suspended_threads_only | While no reply is deferred the model of both ends is such a target, while the machine lives, no loss was noticed and only what a target here carries out was asked

## The target, over any lawful machine

jdwp_target | Target::turn turns | A turn handles the message in front, by what it means, and does nothing exactly where none is whole or the end is closed or paused; bytes that begin none end the session
jdwp_target | Target::turn replies refused suspend resume set clear dispose; Target::step policy_all policy_event_thread policy_none | The same in the standard's words: ids of replies, errors that change nothing; what Suspend, Resume, Set, Clear, Dispose and each suspend policy do
jdwp_debuggee | read_command short reads; Debuggee::carry_out memory wants err; Debuggee::own_refusal | Twelve commands (Suspend, Resume, IDSizes, ..) want no memory, nor does one that is unknown, that doesn't read or that the debuggee itself refuses; where memory is refused nothing changes
jdwp_target | Target::turn encoded packets; Target::release encoded; Target::step encoded | What is sent reads back, within the limit
jdwp_target | Target::step steps | A step is made exactly where the thread may step and the end is not paused; reported in established sessions
jdwp_target | closes_for_a_reason | An open session closes only at a Dispose, a dead machine or a lost connection
jdwp_debuggee | Debuggee::step fits unmarked; Debuggee::handshake fits; fits_vm_death | Reports, VM_START and VM_DEATH fit a packet; one that was reported dead starts nobody
jdwp_target | Target::set_deferring; Target::release releases; answers_what_came | Where it is told to, a target defers commands; each is answered once, or waits, or is dropped as the session ends
jdwp_target | visits_what_turns | A Suspend or Resume of all that is not refused, and an event of policy ALL, visit (look up) exactly the threads that they turn
jdwp_target | Target::session ran; goes_on_at_each_call | After any calls a session is a list of messages handled or deferred, releases, steps and one loss at most; bytes in and out are theirs
jdwp_target | Target::count bound; Target::accept when; Target::feed fed; Target::lose; Target::with_limits threads; TargetOptions::new some | Each other call is one equation on the whole target; a count is at most its limit; `TooManyThreads` exactly where more threads live than may
jdwp_event | matches | A request reports exactly where its kind and each modifier in turn let it
jdwp_event | gather gathers memory | A composite has the events of all requests that report, by rising id, and the most suspending of their policies
jdwp_event | count_down; Requests::insert; Requests::remove | Each Count reached is counted, whether or not a later modifier passes; requests come and go as named
jdwp_event | composites_have_their_layout; Modifier::of_entry; Composite::of_data value | Modifiers, events and composites are read and written by the table of layouts

## The debugger

jdwp_debugger | Debugger::turn turns few memory | A turn tells and leaves what its definition says, whatever bytes came: a fault exactly where no target may send that, the mirror emptied; want of memory changes nothing and hides no fault
jdwp_debugger | Debugger::turn answered suspend resume event_thread event_all refused; Debugger::ask packet refused | The same in the standard's words: tickets of answers; what Suspend, Resume and composites leave of the mirror; what an ask puts; a refusal changes nothing
jdwp_debugger | Debugger::ask ok err | The first refusal that applies, and nothing has changed; else the command leaves under the next free id, encoded, within the limit
jdwp_debugger | Debugger::session ran mirror; goes_on_at_each_call | After any calls the mirror is what the packets read in the session say, and empty after a refusal, a close or a loss; only IDSizes and the commands asked are sent, under free ids
jdwp_debugger | Debugger::with_order; Debugger::turn turns | With `Order::Apart` no composite is refused for a count; the mirror has event requests
jdwp_debugger | Debugger::is_held value suspended; Debugger::at_least value covered; Debugger::session follows unfollowed; Debugger::named_threads held | A thread that it then holds is suspended, while it lives, in each target whose debugger put and read the same, its count no less than told
jdwp_debugger | Debugger::session pending distinct parked alone | No more commands wait than may, no two under one id
jdwp_debugger | Debugger::lose; Debugger::attach when; Debugger::has_front; Debugger::unanswered | A loss answers all tickets that wait, in the order asked; the other calls are one equation each
jdwp_debugger | reads_what_was_asked; reads_what_was_answered; reads_what_was_reported; tells_what_it_read; refuses_what_is_refused | Each end reads what the other's calls encoded; bytes that encode a message are refused for what it is
jdwp_client | Client::ask; Client::ask_for ok err; Client::next_event; Client::keeps_what_is_told; Client::keeps_what_went_through | A client's answer is that told under its ticket, or a struct that says the same; events come in the order read, each once
jdwp_frames | frames_stay_true; keeps_what_each_call_keeps; FrameClient::ask kept; do_frames_last | What was told of a held thread's stack frames the target of a link would answer now, where no command that may change them was asked since or is unanswered; a client keeps just that
jdwp_mirror | Mirror::learn_reply ok; Mirror::learn_composite ok; Mirror::count; Mirror::is_held; counts_by_commands; counts_by_events; forgets_ended_threads; refuses_packets | What a packet leaves of counts, of who is held and of requests; in the standard's numbers, too
jdwp_command | thread_reference::suspend; event_request::set; answers::one_int | Each of the 62 calls makes exactly its command; a target here carries it out, and a debugger finds it bad exactly where an id is too wide, or a text or list too long

## Bytes, data and captures

jdwp_wire | next_hello; next_packet; next_packet_in stays; standing_in | A packet or handshake is found, borrowed, exactly where its bytes stand in front; a fault once its bytes are there; else more is called for
jdwp_wire | finds_first_message; Limits::new; IdSizes::new | A stream cut anywhere gives its first message once it all came; limits and widths exactly in range
jdwp_wire | Wire::take found only fault memory; Wire::put ok err; Wire again; begins_with_one_value | A writing appends the canonical bytes, or changes nothing; what is written reads again whatever follows, no two values stand at one front, a fault is the first from the left, and want of memory hides none
jdwp_layout | layout_of | A command's row is that of the definitions' table of 94, or None
jdwp_layout | read found only fault hides; write ok err; validate accepted fault memory; encodes_one_list | Data of any layout are read, written and judged, the first fault told; want of memory hides none, and judging takes none
jdwp_judge | check yes no; show begins fault lines | `check` and `show` name exactly the first fault of a capture and its line; the lines are those of the definitions
jdwp_show | finds_each_message; stands_in_its_line; tells_widths_first; waits_where_it_stands | To these they are tied: each message once, in its line; which widths hold; which command waits
jdwp_judge | Judge::feed heard told; Judge::end lines fault; Judge::held; CaptureJudge::feed told; CaptureJudge::end lines fault; a_fault_ends_what_is_told | What is told of a session that goes on, or of a capture that is read, is a beginning of what `show` says of it, and all that is sure; what is kept is what waits
jdwp_draw | Picture::read rows whole fault; svg | A drawing has an arrow for each message that `show` prints, in order, and beside it what a debugger's mirror has behind it
jdwp_answer | Reply::read found only fault; Reply::of_data; LineTable::line_at | A reply is a struct exactly where it is in its layout; the line of a code index
jdwp_event_fields | EventSet::of_composite value; read_composites_have_events | A composite that was read is events by kind that say the same, or its policy is none
jdwp_text | read_data; read_items | What is read of a text encodes data of which `show` prints exactly that text; that each is read is tested
jdwp_recording | Direction::come without data; Direction::next some none | Of one side of a recorded connection comes the beginning of its stream, up to the first byte that no segment has, in whatever order they came

## Machines, scripts, plans

jdwp_machine | Machine::next; Machine::step; Machine::query memory; Machine lawful | A machine does what its meaning says, which keeps the laws; refusing takes no memory
jdwp_script | Script::read value; Script::read_with value | A script is exactly the JSON value that the text is, or its first fault is told; want of memory may hide that
jdwp_script_machine | ScriptMachine::read value live; scripts_are_lawful; scripts_begin_soundly; scripts_go_on; loops_go_on_for_ever | A script's machine is lawful, has a live thread, and can make each step that is left; loops never run out
jdwp_attach | read_plan; read_attach_plan; reads_each_form | Each line of a plan is read as exactly what it says, or the first that says nothing is told; want of memory hides no fault of a line before
jdwp_plan_run | run_plan | Lines in words are carried out in order, each once, up to the one at which the run ends; an `expect` passes exactly where the text told is that text

## Sessions over IO, the program

jdwp_engine | serve in_order ended rounds limit at_most | What was read is fed and what was enqueued written, in order, or a beginning where a write failed, all flushed before each read; the session is its rounds, and each way to end comes only for its reason
jdwp_engine | serve_live in_order ended rounds | The same, live: threads step only where a read just before found nothing for as long as steps are apart
jdwp_port | serve_live_sessions serves; serve_live_stream | So is each at a port; times: tested
jdwp_attach | attach_by_lines in_order ended last_flush line | The same of a debugger by a plan: the commands of its lines, in order, and between them a SuspendCount exactly where an event leaves its thread unsure, in `Order::Apart` alone; what is printed is what was told, or a beginning
jdwp_attach | mirror_text; known_text; answered_line; seen_line | Lines are those of `show`; a mirror is told by its threads, then its requests; in `Order::Apart` each thread that was named, by what is sure
jdwp_engine | serve_session served; serve_script fault untouched | A new target's session, from what was read to what was written; a script's fault with nothing touched
jdwp_port | serve_sessions serves closed; serve_stream served; attach_stream ran | Sessions at a port are those of `serve` and `attach`, one after the other with one target
jdwp_program | check_capture tells leaves; show_capture tells leaves; show_stream; check_stream; LiveShow::end; attach_session ran; Outcome::of_session; Fault::status status; limits | What the writer took is the verdict, or the lines and the fault, or a beginning, also while it is read or written. How a session's end is told, with which status
jdwp_words | read runs keeps | Words run a plan only for `attach` or `pair`, and write to no file that they read, by name
jdwp_partner | Partner::session | A `Partner` (`pair` by a plan in words) is fed what is written while its session is open, and what is read is what it put, in order
jdwp_files | run bound leaves | The status says what is on standard output, but for `attach` and `pair`
jdwp_relay | Duct::take_in takes passed; Duct::hand_on hands passed | A recorder's direction: what came is what went and what waits; its end is handed on once, behind all of that
jdwp_relay | Relay::turn recorded covered; Relay::run relaying recorded covered; lines_read_again | Its capture is lines of just what came, in order, and reads so; what went is a beginning of what whole lines hold
jdwp_end | write_out; read_and_feed | All that waits is written, in order, or the failure told; one read feeds exactly what came
milunovesk_c | mv_free; mv_debugger_new; mv_debugger_turn; mv_debugger_thread told; mv_target_turn; mv_check; mv_command_name | From C ([FOREIGN](FOREIGN.md)): calls do to what a handle keeps what the library's do; one that keeps nothing, or the other kind, is told and left
jdwp_end | End::front front; End::take_off; finds_first_message; SessionEnd taken_twice | Each call of one end is one equation on bytes and phase
"""

TAIL = """\
## Only tested

- `main`, programs over the library, crates of tests.
- The table of commands, the fields of modifiers and events, and commands by name, against other listings.
- Texts: lines of `show`, faults, the command line's words, what is told of files, ports and outputs.
- Worked sessions, byte for byte, of each end and of both, cut at every place and lost behind each byte.
- Peers that keep no rule: each fault at both ends; a session with each byte changed to each value; data cut at each byte; texts a million deep.
- Each request for memory refused in turn, of each call (`link_tests`) and command (`bench/refused_memory.py`); that want of memory comes only then, which no contract can say.
- Sockets, clocks and files: what goes through them, a recorder's too, options, closing, which errors pass; the forms of recordings; that no file that is read is emptied under another name.
"""

BLOCK = re.compile(r"(?:pub(?:\([^)]*\))? )?(trait|impl)\b(?:<.*?>(?= ))?\s*(.*)")
FUNCTION = re.compile(r'\s*(pub )?(?:pub\([^)]*\) )?(?:final )?(?:extern "C" )?fn (\w+)')
CLAUSE = re.compile(r"\s*ensures\*?(?: (\w+))? \{")
LAW = re.compile(r"\s+ghost (\w+):")


class Gone(Exception):
    """What a row names and no crate has."""


class Contracts:
    """The public functions of a crate with the clauses that each ensures, and the comments above it and them."""

    def __init__(self, crate):
        self.crate, self.clauses, self.comments, self.remarks = crate, {}, {}, {}
        for file in sorted(glob.glob(f"{ROOT}/crates/{crate}/src/**/*.rt", recursive=True)):
            with open(file, encoding="utf-8") as lines:
                self.read(os.path.splitext(os.path.basename(file))[0], lines)

    def read(self, module, lines):
        block, is_trait, names, comment, remark = None, False, [], [], []
        for line in lines:
            begun = BLOCK.match(line)
            if begun and not line.startswith(" "):
                block, is_trait = re.match(r"(?:.* for )?&?(?:mut )?(\w+)", begun[2])[1], begun[1] == "trait"
            elif line.startswith("}"):
                block = None
            elif found := FUNCTION.match(line):
                names = [f"{block}::{found[2]}"] if block and line.startswith(" ") else [found[2], f"{module}::{found[2]}"]
                names = names if found[1] or is_trait else []
                for name in names:
                    self.clauses.setdefault(name, [])
                    self.comments.setdefault(name, " ".join(comment))
            elif found := CLAUSE.match(line):
                for name in names:
                    self.clauses[name].append(found[1])
                    self.remarks.setdefault((name, found[1]), " ".join(remark))
            elif block and (found := LAW.match(line)):
                self.clauses.setdefault(block, []).append(found[1])
            if found := re.match(r"\s*/// ?(.*)", line):
                comment.append(found[1])
            elif not line.lstrip().startswith("#["):
                comment = []
            found = re.match(r"\s*// (.*)", line)
            remark = [*remark, found[1]] if found else []

    def check(self, contract):
        """How a contract is shown, which the crate has."""
        name, *clauses = contract.split()
        if not self.clauses.get(name):
            raise Gone(f"{self.crate} has no {name} with a contract")
        for clause in clauses:
            if clause not in self.clauses[name]:
                raise Gone(f"{self.crate}: {name} has no clause {clause}")
        return f"`{name}`" + (f": {', '.join(clauses)}" if clauses else "")

    def sentence(self, contract):
        """The comment above the first clause of a contract, or the first sentence of that above its function, without the full stop."""
        name, *clauses = contract.split()
        remark = self.remarks.get((name, clauses[0])) if clauses else None
        return remark.rstrip(".") if remark else re.split(r"\.(?: |$)", self.comments[name])[0]


def names_in_crates():
    names = set()
    for files in ("src/**/*.rt", "specs/**/*.antt"):
        for file in glob.glob(f"{ROOT}/crates/*/{files}", recursive=True):
            with open(file, encoding="utf-8") as it:
                names.update(re.findall(r"\w+", it.read()))
    return names | {os.path.basename(it) for it in glob.glob(f"{ROOT}/crates/*")}


def row_of(line, crates):
    crate, contracts, words = (it.strip() for it in line.split("|", 2))
    if crate not in crates:
        crates[crate] = Contracts(crate)
    contracts = [it.strip() for it in contracts.split(";")]
    shown = "; ".join(crates[crate].check(it) for it in contracts)
    return f"| {words or crates[crate].sentence(contracts[0])} | {shown} | {crate} |"


def page():
    """The text of the page, and what of it no crate has."""
    crates, gone, lines, names = {}, [], [], names_in_crates()
    for line in ROWS.splitlines():
        if line.startswith("#"):
            lines += [line, "", "| You may rely on | Contract | Crate |", "|---|---|---|"]
        elif line:
            try:
                lines.append(row_of(line, crates))
            except Gone as it:
                gone.append(str(it))
        elif lines:
            lines.append("")
    text = f"{HEAD}\n" + "\n".join(lines).replace("|---|---|---|\n\n", "|---|---|---|\n") + f"\n\n{TAIL}"
    for name in re.findall(r"`([\w:]+)`", text):
        gone += [f"no crate has {name}" for it in name.split("::") if it not in names]
    return text, gone


def main(words):
    text, gone = page()
    for it in gone:
        print(f"proved: {it}")
    if gone:
        return 1
    if words != ["--check"]:
        with open(PAGE, "w", encoding="utf-8") as it:
            it.write(text)
        return 0
    with open(PAGE, encoding="utf-8") as it:
        if it.read() == text:
            return 0
    print("proved: docs/PROVED.md is not what bench/proved.py writes")
    return 1


if __name__ == "__main__":
    sys.exit(main(sys.argv[1:]))
