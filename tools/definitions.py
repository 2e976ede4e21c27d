#!/usr/bin/env python3
"""Crate by crate the definitions that contracts of public functions cite, each with what it says.

    tools/definitions.py    the page, as `tools/pages.py` has it

A sentence is the comment above the definition in its file of `specs`. Where none stands there, `SAID` has it; a definition that is
named there is on the page also where no contract of a public function cites it itself.
"""
import re
import sys
sys.dont_write_bytecode = True
from sources import Index, ROOT, crates, imports_of, words_of

HEAD = """# Definitions

A contract says what a call does in words that are defined in `specs/` of
its crate. Here are, crate by crate from the lowest on, those that the contracts of public functions cite, each with what it says.

- What has to be believed for the headline: the list in [HEADLINE](HEADLINE.md), which is computed, and the text in [BELIEVE](BELIEVE.md).
- The calls with their contracts: [API](API.md). The words of the texts: [GLOSSARY](GLOSSARY.md).
- A value of the code is seen by its model: `impl Model` beside the type names the record or list that contracts see. A code's own
  struct or enum is seen as it is.
- Some definitions need no belief for the headline, as they only carry its proof: the invariants of types (`IsWhole` of `sk_kernel`), and
  what undo logs come to (`Unwound`, `Lightened`). Beside the headline crates promise more: where `HasRoom` holds of guesses
  (`sk_guesses`) or of a log (`sk_undo`), the next draw or note wants no memory.
- Files in `specs/` named `..Law.antt` or `..Lemma.antt` hold proofs that the models of types name. Skip them.
"""
SAID = {
    "sk_renamed": {
        "CommitsRenamed": "a commit is the same where keys have other names",
        "FailsRenamed": "a failure is the same where keys have other names",
        "renamed": "the machine told of the names: each has what its key has",
        "TakesRenamed": "a step is the same where keys have other names, no two of which stand for one key",
    },
    "sk_engine": {
        "lead_told": "what the answer to a try to lead tells",
        "no_rounds": "no round was taken, and nothing waits",
        "after_batch": "the keys of the engine after a try of a batch",
        "after_cut": "the keys of the engine after a try of a cut",
        "after_fence": "the keys of the engine after a try of a fence",
        "batch_told": "what an answer to a batch tells",
        "fence_told": "what an answer to a fence tells",
        "round_told": "what an answer to a round tells",
        "Runs": "any moves of any hosts, one after another",
        "WasLost": "a host was told that a batch of its leadership is lost",
    },
    "sk_requests": {
        "error_text": "the bytes of an error; what would end the line is a space",
        "null_text": "the bytes of null",
    },
    "sk_objects": {
        "IsValue": "what holds of every value: the limits of its kind",
        "same_bytes": "what `==` of bytes computes",
        "same_pipe": "what `==` of pipes computes: the same bytes, and whether shut",
    },
    "sk_inversion": {
        "written_by": "what is there after a write that sets or changes: a change of what is absent leaves it absent",
    },
    "sk_words": {
        "name": "the name that a word says, or that it is malformed",
        "unknown": "the rule of a first word in a table, or that the word is unknown",
    },
    "sk_questions": {
        "entity_words": "the words that name an entity",
        "IsEntity": "what holds of every entity: its processes are paths and its names are names",
    },
    "sk_script": {
        "input_words": "how an input is printed",
        "same_script": "what `==` of scripts computes: the same instructions",
        "script_line": "a script with one line more, or its fault",
    },
    "sk_trace": {
        "event_words": "the words of an event",
        "IsEvent": "what holds of every event: its process is a path, its guess a number, its input within the limits",
        "IsInput": "a version at most 2^63 - 1 and at most 512 bytes",
    },
    "sk_outputs": {
        "Said": "the outputs in the order in which they were said, each with its channel and the guesses that it rests on; and "
            "the room for more",
    },
    "sk_guesses": {
        "AllAlmostExact": "each list has the keys that rest on its guess, and no others but some of these",
        "FourStatuses": "the four statuses of a byte, two bits each",
    },
    "sk_held": {
        "FailsBy": "the guess of this number fails as the kernel's does, or `None` where nothing is known of it",
        "GuessPost": "the step that was written is taken under a new guess, or the first cause against it",
        "no_step": "a step that looks at, writes and says nothing",
        "PutsPost": "the step that is being written sets the key too, or the first of `LongKey`, `LongValue`, `Memory`",
        "SaysPost": "the step says the output too, or why not",
        "StepPost": "the step that was written is taken, or there was no memory",
        "with_look": "the step looks at one key more",
        "with_write": "the step writes one key more",
        "WritesPost": "the step makes the key this, or absent, or why not",
    },
    "sk_batches": {
        "after_cut": "the queue behind a cut",
        "after_take": "the queue when the next frame is sent",
        "after_word": "what a word on a frame leaves",
        "CutsARange": "where a cut is due it takes away just the batches of one frame, from its first number to its last",
        "decided": "what is decided of the oldest batch, if anything is",
        "is_refused": "a batch was cut off",
        "places_at": "the next frame stands here, in segments of this length",
        "take_refused": "the first cause against the next frame: `Stopped`, `Nothing`, `Busy`, `NoNumber`, `Short`",
        "word_refused": "the first cause against a word on a frame: `Stopped`, `Unknown`",
    },
    "sk_batched": {
        "Begins": "the guess of the open batch is drawn where it was not",
        "Happens": "calls one after another, by the clauses of each",
        "LogPost": "what `log` answers and leaves",
        "Runs": "any calls, one after another, with what the kernel inside is told",
    },
    "sk_commands": {
        "spoilt": "a queue that is not to be carried out",
        "AreAsked": "each of these works is of commands that some request says, and more than a reply",
        "reply_text": "the bytes of a reply",
        "set_as": "a key gets a value, where it may by NX and XX",
        "WaitsSaid": "each command that waits in a queue is said by a request",
        "with_options": "how a key is set, with what each word more says; an unknown word, or NX beside XX, is none",
    },
    "sk_plain_store": {
        "Entries": "keys with what they have",
        "has_place": "whether a key has a place",
    },
    "sk_replay": {
        "after_works": "a plain store behind works, one after another",
        "works_in": "the works that payloads say, in order",
    },
    "sk_recovered": {
        "AreWritten": "segments, what was written into them, and what a crash left",
        "CountedIsJoined": "what counts of segments is what `joined` of `sk_log` makes of them",
        "counting": "what counts of a segment that begins with the next number",
        "joined_all": "what `joined` of `sk_log` makes of segments, one after another",
        "lower": "the least number from which one of these segments goes on",
        "synced_at": "how many frames in a row were told as synced",
    },
    "sk_served": {
        "entries_after": "what a plain store holds after the works of entries, in order",
        "names_reserved": "whether work names a key that stands for a batch",
        "PlainStoreKnows": "the keys of a plain store are all that there are",
    },
    "sk_channels": {
        "channel_at": "the channel that has a number, if one has",
    },
    "sk_durable": {
        "CarryPost": "what carrying out work answers and leaves",
        "ChannelsLetGoJustWhatMay": "a channel has let go of just the longest front part of its replies that rest on nothing undecided",
        "ConnectPost": "a channel more, with its number; or as many as may be are taken, or no memory, and nothing is seen to change",
        "DecidePost": "the oldest batch is decided, or none is due and nothing has changed",
        "Does": "what a store does, one thing after another",
        "FeedPost": "what `feed` answers and leaves, by the calls that it comes to",
        "FramePost": "the next frame stands sealed in the room, with its place; or the first cause against it",
        "frames": "the frames of the log",
        "HangUpPost": "the channel is gone, and its number is let go where nothing is left for it",
        "HasPast": "what came on a channel, and what its tickets were told",
        "KnowsIfTold": "where work is told of all keys, each that is not listed is absent and rests on nothing",
        "LoggedIsOnDisk": "a batch that was told as logged lies in frames that were told as synced, with all before them",
        "OutputPost": "the next bytes that may go out of a channel stand in the room",
        "TicketsAreToldRight": "what tickets were told is what a plain store answers after the commands that stand, or that "
            "nothing was done",
        "TurnPost": "the log goes on in the next segment, or there is no number for one",
    },
    "sk_led": {
        "LoggedIsInEngine": "each batch that was told as logged stands in the engine for ever, and is found",
    },
    "sk_reopened": {
        "has_wrong": "whether an entry has a key that no store has: a reserved one, or one longer than may be",
        "HasNone": "there are no numbers for another segment, its head and a frame behind that",
        "ReopenPost": "a store goes on with these entries, or the first cause against it",
    },
    "sk_store": {
        "IsProcess": "there is a process",
        "StateFits": "what undoes a change fits what is there",
        "taken_back": "a state after its newest write was taken back",
    },
    "sk_plain": {
        "CanDo": "what a plan changes in place is there, and the change fits it; what it writes beside its process is not that process",
        "PlanView": "a plan with the process that it is for: the process as it becomes, what is looked at, what is done beside",
        "row_seen": "the plan of a row, seen so",
    },
    "sk_undo": {
        "CanGoBackOnce": "the newest note of a slot can be undone",
        "CanTakeBack": "a write can be taken back",
        "FitsBy": "what puts a value back fits what is there",
        "HasNote": "there is a note",
        "look_at": "what an entity has",
        "note_count": "the notes of a slot",
        "ObjectFits": "what puts an object back fits what is there",
        "recounted": "the counts of names when something comes or goes",
        "wrote": "the logs after one write, noted with what the step rests on",
    },
    "sk_kernel": {
        "IsWhole": "the parts represent the trace, but for notes that are left out (`MergedStands` of `sk_record`), and earlier "
            "guesses are decided; no caller sees it",
    },
    "sk_server": {
        "answer_to": "the answer to a request",
    },
    "sk_wire": {
        "known": "what a pass was given to see",
    },
    "sk_messages": {
        "answer_of": "the answer of a reply by its numbers and content",
        "content_of": "the content that a reply sends",
        "reply_bytes": "a reply as bytes",
        "reply_of": "the reply that bytes are, all of them, if any",
    },
    "sk_client": {
        "WorldHandInPost": "what a hand-in leaves of the desk of a world, or its first cause; all else of the world stays",
        "given": "the desk after a reply",
        "given_answer": "what a reply is answered",
        "out_of_turn": "the refusal that tells the number of the reply which is next",
        "reply_refused": "why a reply comes back",
        "request_of": "the request of a turn",
        "rule_refused": "the first cause against a rule",
        "turn_answer": "what a turn answers",
        "wished": "the rule that the few words of a wish stand for: bytes are the buffer of the process, and an input the kept answer",
        "wished_at": "the same, at the desk as it stands",
        "WorldHandInPost": "a hand-in at a world is its desk's, and server and replies stay",
    },
    "sk_workers": {
        "AllStand": "all receipts of these workers stand and are their own",
    },
    "sk_crew": {
        "AreNew": "these workers made no call yet",
    },
    "sk_scenario": {
        "is_end": "a line whose words are just `end`",
        "section_view": "a section as contracts see it",
    },
    "sk_report": {
        "last_line": "the report's last line",
        "line_of": "the line of an entity",
        "terminal_said": "the line of a terminal",
    },
    "sk_talk": {
        "handed_at": "how many texts of a terminal were handed out",
        "is_named": "a name is this entity's",
        "report_of": "the report of what a scenario declares, as it stands",
    },
    "sk_command": {
        "command_line": "the commands of the program and their words",
        "wish_of": "the wish that a job is, as contracts see it",
    },
    "sk_run": {
        "EndsPlayed": "steps are played as the words want it: strictly or not",
        "EndsWorld": "the events of a world are, likewise",
        "Shown": "what is wanted beside an answer is told: nothing, or its lines and its instruction",
        "Answers": "the lines of a talk are answered in turn, and this text is their answers",
        "foreseen": "the place of the trace where an event goes, and what its step would touch",
        "left_by": "the record that a trace leaves",
    },
    "sk_play": {
        "DeskLeases": "what a lease of so many private instructions comes to at a desk",
        "KernelLeases": "the same at a kernel",
        "WorldLeases": "the same at the desk of a world",
    },
    "sk_handles": {
        "BeginsEpoch": "an epoch of a desk begins, or it is told why not",
        "ClientLeases": "what a lease of so many private instructions comes to at a desk whose server is elsewhere",
        "Commits": "a guess is committed, of a kernel over byte strings",
        "Connects": "a channel more, whose number is told",
        "Decides": "the oldest batch is decided, if it is",
        "desk_in": "the desk that a text declares, whose files are the server's",
        "Fails": "a guess fails, of a kernel over byte strings; a frame failed, of a store",
        "Feeds": "bytes came on a channel",
        "FeedsAhead": "bytes came on a channel, and the answer is known ahead",
        "fence_answer_of": "the answer to a fence that these numbers say",
        "GivesPiece": "the next piece of a snapshot is in the room, as a frame",
        "Guesses": "a guess is drawn with the step that was written",
        "HangsUp": "a channel is gone",
        "Looks": "the step that is being written looked at a key",
        "NextReady": "a channel that there is output for is told",
        "opened": "a handle holds something now",
        "opening": "what a text declares, at its start",
        "OutputsTo": "bytes that may go out on a channel are in the room",
        "Puts": "it sets what a key has",
        "Removes": "it makes a key absent",
        "report_shown": "the report, which there always is",
        "round_answer_of": "the answer to a round that these numbers say",
        "Says": "it says this to a channel",
        "SaysStill": "a host says that it led after a round was taken",
        "SendsHead": "the head that makes a cut is in the room, with its place",
        "SendsRequest": "the oldest request that waits is in the room, and is taken where the room has all of it",
        "ShowsAhead": "the answer to the last request is in the room",
        "ShowsAsked": "a word of what the host is asked is in the room",
        "Steps": "the step that was written is taken",
        "Syncs": "a frame is synced",
        "tag_at": "one of the undecided guesses that a key rests on, by its place",
        "tags_shown": "the guesses that the entity of this name rests on",
        "TakesFrame": "the next frame is in the room, with its place",
        "TakesRound": "the next round is taken",
        "TakesTurn": "a turn of a process on a desk, and what is told of it",
        "TellsClosed": "whether a fault was told on a channel",
        "TellsCut": "the cut that is to be made",
        "told_of_line": "what is told of a line",
        "Turns": "the log goes on at the front of the next segment",
        "undone_at": "one of the keys that the last failure took back",
        "unopened": "what is told of a text that declares nothing that can be opened",
        "value_at": "the value at a key of a store, what is undecided in it",
        "value_of": "what a key has",
        "value_shown": "what the entity of this name has",
        "word_told": "what is told of a word of an engine",
    },
}


def clause_lines(lines):
    """The lines of the clauses of public functions."""
    is_public, is_clause = False, False
    for line in lines:
        head = re.match(r"\s*(pub(?:\(crate\))? )?(?:const |unsafe )*fn ", line)
        if head:
            is_public, is_clause = head[1] == "pub ", False
        is_clause = line.strip() not in ("", "{") and (is_clause or re.match(r"\s+(ensures|requires)\b", line) is not None)
        if is_public and is_clause:
            yield line
        is_clause = is_clause and not line.rstrip().endswith("{}")


def cited(index):
    """The definitions that clauses of public functions cite, and those that `SAID` names."""
    found = {}
    for crate in crates():
        for path in sorted((ROOT / "crates" / crate / "src").glob("**/*.rt")):
            lines = path.read_text().split("\n")
            for module, name in words_of(clause_lines(lines), imports_of(lines)):
                it = index.find(module, name) if module else None
                if it and it.file.suffix == ".antt":
                    found[it.name, it.file] = it
    named = (it for it in index.known.values() if not it.comment and SAID.get(it.crate, {}).get(it.name))
    return list(found.values()) + [it for it in named if (it.name, it.file) not in found]


def sentence(it):
    return it.comment or SAID.get(it.crate, {}).get(it.name, "")


def page(its):
    out = [HEAD]
    for crate in crates():
        own = sorted((it for it in its if it.crate == crate), key=lambda it: (str(it.file), it.first))
        if own:
            out.append(f"## [`{crate}`](../crates/{crate}/README.md)\n\n| definition | what it says | file |\n|---|---|---|")
            for it in own:
                told = sentence(it).replace("|", "&#124;")
                out.append(f"| `{it.name}` | {told} | `{it.file.relative_to(ROOT / 'crates' / crate / 'specs')}` |")
            out.append("")
    return "\n".join(out)


def faults(index, its):
    """What the page lacks, and what `SAID` has too much."""
    yield from (f"{it.file.relative_to(ROOT)}: {it.name} has no sentence" for it in its if not sentence(it))
    bare = {(it.crate, it.name) for it in index.known.values() if not it.comment}
    said = ((crate, name) for crate, names in SAID.items() for name in names)
    yield from (f"{crate}: {name} has a comment, or is not there" for crate, name in said if (crate, name) not in bare)


if __name__ == "__main__":
    print(page(cited(Index())))
