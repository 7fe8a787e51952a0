"""The sentences of faults. Each code has one, with the names of its fault's subject in braces; a page or a command
prints it where it shows a fault, and nothing in src/forestplan/ reads one."""
import string
from collections.abc import Mapping

from forestplan.fault_codes import Code

SENTENCES: dict[Code, str] = {
    # texts of networks, in the DIMACS format
    Code.NO_LINE_OF_A_NETWORK: "`{word}` begins no line of a network (F8)",
    Code.SECOND_PROBLEM_LINE: "a second `p` line (F2)",
    Code.NO_PROBLEM_LINE: "no `p edge NODES EDGES`: `{row}` (F4)",
    Code.NODES_ABOVE_LIMIT: "more than {most} nodes (F7)",
    Code.NO_SUCH_LINE: "no `{word} {form}`: `{row}` (F4)",
    Code.NO_NODE_OF_LINE: "there is no node {node}: there are {nodes}, from 1 on (F5)",
    Code.NO_CHANNEL_TO_BAR: "channel {channel} can't be barred, only 1 to {most} can (F13)",
    Code.LOOP: "an edge from node {node} to itself (F6)",
    Code.SECOND_EDGE_LIMIT: "more than {most} different edges (F7)",
    Code.IDENTIFIER_ABOVE_LIMIT: "the identifier is 2^128 or more (F11)",
    Code.SECOND_IDENTIFIER: "a second identifier of node {node} (F12)",
    Code.BARS_ABOVE_LIMIT: "more than {most} channels are barred at node {node} (F14)",
    Code.PROBLEM_LINE_MISSING: "there is no line `p edge NODES EDGES` (F1)",
    Code.TOO_MANY_NODES: "{nodes} nodes, and a network has at most {most}",
    Code.TOO_MANY_EDGES: "more than {most} edges, the most that a network has",
    Code.TOO_MANY_NEIGHBOURS: (
        "node {node}{name:? (~)} has {neighbours} neighbours, more than {most} (N1)"
    ),
    Code.ONE_IDENTIFIER_TWICE: "nodes {node} and {other} have one identifier (N2)",
    Code.EDGE_BEFORE_PROBLEM_LINE: "{what} before the line `p edge NODES EDGES` (F3)",
    Code.BEFORE_PROBLEM_LINE: "{what} before the line `p edge NODES EDGES` (F10)",
    # plans
    Code.NO_PLAN: "no line `plan` (C6)",
    Code.NO_LINE_OF_A_PLAN: "no node and its channel: `{row}` (C6)",
    Code.PLAN_OF_OTHER_NODE: "node {node} is not one of 1 to {nodes} (C2)",
    Code.SECOND_PLAN_LINE: "node {node} has a second line (C3)",
    Code.CHANNEL_ABOVE_LIMIT: (
        "node {node} has channel {channel}, which is above {channels} (C5); if it is a "
        "real channel number: forestlab channels --back TABLE"
    ),
    Code.CHANNEL_BARRED: ("node {node} has channel {channel}, which is barred at it (C8)"),
    Code.NO_PLAN_LINE: "node {node} has no line (C1)",
    Code.NO_CHANNELS: "`{word}` is no file, no channel, and no range as 1-13 or 36-64/4",
    Code.NO_RANGE: (
        "`{word}` names no channel, or more than {most}, or its last one isn't reached"
    ),
    Code.NO_NODE_WITH_CHANNEL: "no node with a channel: `{row}`",
    Code.CHANNEL_TWICE: "the table names a channel twice, or more than {most} channels",
    Code.CHANNEL_OUTSIDE_TABLE: "channel {number} isn't one of the table",
    Code.CHANNEL_ABOVE_TABLE: (
        "channel {number}, and the table has {table}: it takes {channels} channels"
    ),
    # what a file is
    Code.COLUMN_NOT_THERE: "--columns: no table here has {title} as its column {column}",
    Code.NO_TABLE: "--no-heading: no table is read here",
    Code.SPREADSHEET: "a spreadsheet isn't read: save its sheet as CSV",
    Code.FORM_UNSAID: "its ending doesn't say what it is",
    Code.FORM_TO_CONVERT: (
        "it isn't read, but what this makes of it is (apt install {package}):\n  {made}\n  "
        "forestlab network read {new}"
    ),
    Code.COMPRESSED: "it is compressed: unpack it by gunzip",
    Code.NO_ENCODING: "there is no encoding {encoding}",
    Code.NOT_IN_ENCODING: "it isn't in {encoding}",
    Code.ZERO_LETTER: "a letter of value zero, so it is no text",
    Code.UNSAID: "{what}; say what it is:{commands}",
    # tables
    Code.NO_ROW_OF_A_TABLE: "no row of a table: {why}",
    Code.NO_ROW_BELOW_HEADING: "it has no row below its heading",
    Code.SEVERAL_MARKS: "several marks may be between the fields: put a heading above",
    Code.FOR_EXCEL: "`{row}` is for Excel alone: delete this line",
    Code.NO_ROW: "it has no row",
    Code.HEADING_IN_SPITE: "it is a heading, and --no-heading says that there is none",
    Code.TWO_TITLES: "{titles} may each be the column {column}: rename one",
    Code.HEADING_TWICE: "the heading a second time",
    Code.OTHER_NUMBER_OF_FIELDS: "{fields:#field}, and the first row has {wanted}",
    Code.NO_NUMBER: "no number, or one with thousands: `{field}`",
    Code.NO_PLACE_ON_EARTH: "no place on this earth: `{field}`",
    Code.NO_HEADING_WITH: "no heading with {columns}: `{row}`",
    Code.NO_ROW_WITH: "no row with {columns}: `{row}`",
    Code.NO_CHANNEL_IN_FIELD: "no channel: `{field}`",
    Code.SECOND_SITE: "a second site {name}",
    Code.TOO_MANY_SITES: "more than {most} sites",
    Code.NO_IDENTIFIER: "no identifier below 2^128: `{field}`",
    Code.SECOND_SITE_OF_IDENTIFIER: "a second site of the identifier {number}",
    Code.NO_DEGREES: "no latitude and longitude in degrees: are they exchanged?",
    Code.NO_SITE_HAS_A_PLACE: "no site has a place, so --reach joins none",
    Code.TOO_MANY_NEAR_EDGES: "more than {most} edges within {reach:g} km",
    Code.NO_CHANNEL_WITHIN: "no channel from 1 to {most}: `{channel}`",
    Code.BARS_OF_SITE_ABOVE_LIMIT: "more than {most} channels are barred at {site}",
    Code.NOT_A_SITE_OF: "{name} isn't a site of {table}{alike:?, is it ~?}",
    Code.NO_SITE: "{name} is no site{alike:?, is it ~?}",
    # lists of edges and of neighbours
    Code.NO_NAME: "no name of a node: `{word}`",
    Code.NO_NAME_IN_LIST: "no name of a node: `{word}`; a table is read --as pairs",
    Code.NO_TWO_NODES: "no two nodes, maybe with a number or {{data}}: `{row}`",
    Code.OTHER_NUMBER_OF_WORDS: "not as many words as in the rows before: `{row}`",
    Code.HEADING_IN_LIST: (
        "it is a heading, and lines of nodes have none; a table is read --as pairs"
    ),
    Code.SECOND_LINE_OF_NODE: "a second line of {node}",
    Code.NODE_WITHOUT_LINE: "{node} has no line of its own: is the text cut?",
    Code.ONE_NAME_TWICE: "nodes {node} and {other} are both called {name}",
    # forms of other programs
    Code.NO_NETWORKX: "{form} is read by networkx, which isn't installed ({package})",
    Code.NETWORKX_REFUSES: "networkx can't read it as {form}: {why}",
    Code.NETWORKX_READS_OTHERS: (
        "the text has {nodes} nodes and {edges} edges, and networkx reads {nodes_read} nodes "
        "and {edges_read} edges"
    ),
    Code.SECOND_NODE_OF_NAME: "a second node is called {name}",
    Code.SECOND_GRAPH: "a second graph, or one in a node: one graph is read",
    Code.SECOND_NODE_OF_ID: "a second node of the id {name}",
    Code.JOINS_BUT_NO_EDGE: "`{kind}` joins nodes and isn't an edge",
    Code.NO_NODE_OF_ID: "{name} isn't the id of a node",
    Code.TAG_TOO_LONG: "a tag or a comment of more than {most} MiB",
    Code.SPACE_TOO_LONG: "a namespace of more than {most:,} letters",
    Code.TEXT_DEFINED: "the text defines `{name}`: write what it stands for in its place",
    Code.NO_XML: "no XML: {why}",
    Code.KEY_TWICE: "an object has a key twice: {keys}",
    Code.JSON_NUMBER_TOO_LONG: "no JSON: a number of more than {most:,} digits",
    Code.NO_JSON: "no JSON: {why}",
    Code.NO_JSON_OF_NODES: (
        "no JSON of nodes and links, as networkx writes it: a list `nodes`, a list `links` "
        "or `edges`, and no other"
    ),
    Code.NO_TEXT_AND_NO_NUMBER: "its `{key}` is no text and no whole number",
    Code.OPEN_QUOTATION: "a quotation mark without a second one",
    Code.QUOTATION_IN_TEXT: "a quotation mark within a text, which GML writes as &quot;",
    Code.SECOND_NAME_OF_NODE: "a second name of one node",
    Code.GML_WITHOUT_END: "no GML: `{word}` has no end: is the text cut?",
    Code.NO_KEY_OF_GML: "no GML: no key: `{word}`",
    Code.NO_VALUE_OF_GML: "no GML: no value: `{word}`",
    Code.NO_LIST_OF_GML: "no GML: no list to close: `{word}`",
    Code.OTHER_NUMBER_OF_LETTERS: (
        "no graph6: the bits of {nodes:#node} take {wanted:#letter}, and here are {letters:,}"
    ),
    Code.EDGES_ABOVE_LIMIT: "more than {most} edges",
    Code.SECOND_GRAPH_OF_FILE: "a second graph: a file of one graph is read",
    Code.NO_LETTERS_OF_FORM: "no {form}: `{row}`",
    Code.NO_LETTER_OF_FORM: "no {form}: `{letter}` isn't one of the letters from ? to ~",
    Code.NODES_OF_LINE_ABOVE_LIMIT: "more than {most} nodes",
    Code.NUMBER_OF_NODES_CUT: "no {form}: its number of nodes is cut",
    # networks that are named or made
    Code.NO_FILE: "No such file or directory",
    Code.NO_FILE_AND_NO_NETWORK: (
        "there is no such file or example, and no network of this name is made, as {made} are"
    ),
    Code.RADIUS: "the radius is {radius}, and has to be above 0 and at most 2",
    Code.EDGES_OF_NODES: "EDGES is {edges}, and {nodes} nodes have 0 to {most}",
    Code.NO_NETWORK_WITH_WISHES: ("no network with these wishes was found: change their numbers"),
    Code.SIZE_BELOW_LEAST: "{name} is {size}, and has to be at least {least}",
    Code.NODES_OF_KIND_ABOVE_LIMIT: (
        "that would be {nodes} nodes, and a network has at most {most}"
    ),
    Code.NOT_DIMACS: "{why}; standard input is read as DIMACS, unless --as says its form",
    Code.NETWORK_FROM_STANDARD_INPUT: (
        "names: standard input has the plan, so the network has to be a file"
    ),
    Code.PLAN_OF_OTHER_NETWORK: (
        "{name} isn't of this network, whose nodes have a line each, in order"
    ),
    # transcripts
    Code.NO_PAYLOAD_OF: (
        "{word} is no payload of {program}{has:?, which has ~}{others:?; is it a run of ~? "
        "See --program}"
    ),
    Code.NO_NUMBER_OF: "{word} is no number of a {what}, which is below 2^{bits}",
    Code.NO_WIRE: (
        "{words} is no wire, which are `payload P WORD NUMBER`, `ack P`, `safe P` and `close`"
    ),
    Code.NO_ENTRY_AFTER_STAMP: (
        "{words} after its stamp is neither `V {step}`, `V put W {what}` nor `V take W {what}`"
    ),
    Code.NO_KIND_OF_ENTRY: (
        "{words} is neither `V {step}`, `V put W {what}` nor `V take W {what}`"
    ),
    Code.NO_ENTRY: "not an entry: {why}",
    Code.NO_ENTRY_AT_END: ("not an entry: {why}, and no line feed after it (is the text cut?)"),
    Code.NO_TRANSCRIPT: (
        "neither `transcript 1 N`, `transcript 2 N`, `transcript 3 NAME N` nor `transcript 4 "
        "NAME N`"
    ),
    Code.NETWORK_AND_NO_TRANSCRIPT: (
        "neither `transcript 1 N`, `transcript 2 N`, `transcript 3 NAME N` nor `transcript 4 "
        "NAME N`; this is a network: it is a file of its own, named before the transcript"
    ),
    Code.NO_TRANSCRIPT_IN_ENCODING: (
        "neither `transcript 1 N`, `transcript 2 N`, `transcript 3 NAME N` nor `transcript 4 "
        "NAME N`; save it as UTF-8 without a byte order mark"
    ),
    Code.NO_ORDER_OF_ENTRIES: (
        "edition 1 has no order of all entries: only later editions are written in other forms"
    ),
    Code.WRONG_PROGRAM: "a transcript of {named}, not of {program}: --program {named}",
    Code.NODES: "the transcript has {nodes} nodes, the network {of_network}",
    Code.NO_SUCH: "{entry}, but there is no such node or neighbour",
    Code.NOT_READY: "{entry}{lacks:?, but it lacks ~}{rule:?; ~}",
    Code.NOTHING_TO_PUT: "{entry}, for which it has nothing{rule:?; ~}",
    Code.LINK_EMPTY: "{entry}, and {neighbour} never puts it (is the text cut?)",
    Code.PUT_LATER: "{entry}; it is put in line {put}, which can't have come before",
    Code.TAKEN_BEFORE_PUT: "node {node} takes what {neighbour} hasn't put",
    Code.WRONG_WIRE: "{entry}, but the next one there is {due}{rule:?; ~}",
    Code.WRONG_STAMP: "{entry} with stamp {stamp}, but the clock there gives {due}",
    Code.OUT_OF_ORDER: (
        "{entry} with stamp {stamp}, but entries ascend by stamp, and then by node"
    ),
    Code.NOT_WHOLE: "after the last entry {undone} (is the text cut?)",
    Code.STUCK: "after the last entry {owing}",
    Code.NOT_RIGHT: "{run}, whose nodes find what isn't right: {why}",
    Code.NO_PROVED_PROGRAM: "no proved program runs {name}",
    Code.TRANSCRIPT_REFUSED: "{name} {why}",
    Code.ENTRY_REFUSED: "{word}: {what}",
    Code.NOT_DUE: "a message comes that isn't due",
    Code.TWO_STANDARD_INPUTS: (
        "standard input has one text: name a file for the network or for the transcript"
    ),
    Code.EDITION_OF_ROUNDS: (
        "edition {edition} is of rounds, and the nodes of {program} react to messages: " "edition 4"
    ),
    Code.EDITION_OF_REACTIONS: (
        "edition 4 is of nodes that react to messages, and those of {program} make rounds"
    ),
    Code.STEP_NOT_READY: "{entry}{lacks}",
    Code.HAS_PULSES: ("edition {edition} has pulses already: only edition 4 is written as rounds"),
    Code.TOO_MANY_CLOCKS: (
        "the vector clocks of this run have more than {most:,} entries, which ShiViz can't show: write it as json"
    ),
    Code.NO_WIRE_OF_SYNCHRONISER: "not a wire of the synchroniser: {why}",
    Code.NO_WORD_TO_BEGIN: "{word} is no word that a message begins with",
    Code.PROGRAM_FOR_ROUNDS: (
        "--program is for the form rounds, and rounds need it, as `--program leader`"
    ),
    # texts and programs that are asked for
    Code.NOT_READ: "{why}",
    Code.TEXT_TOO_LONG: "more than {most} MiB, {why}",
    Code.NOT_BUILT: "{name} isn't built: {how}",
    Code.CANT_BE_RUN: "{name} can't be run: {why}",
    Code.ENDED_BY_SIGNAL: (
        "the program's file has ended the command by signal {signal}, before it was done"
    ),
    Code.ENDED_BY_ITSELF: (
        "the program's file has ended the command by itself, before it was done"
    ),
    Code.CALL_NOT_ENDED: (
        "a call of a function of the program's file doesn't end, and the file catches what ends it: "
        "let each `except` name what it catches"
    ),
    Code.OPTION_OF_OTHER_PROGRAM: "--{option} is for --program {of}, not for {name}",
    Code.NO_NAME_OF_A_PROGRAM: "{name} is no name of a program, and doesn't end in .py",
    Code.NO_PROGRAM: (
        "there is no program {name}: there are {names}, and a file of your own, as {name}.py"
    ),
    Code.NO_ROOT: "there is no node {root} that could be the root: the network has {nodes}",
    Code.NO_FOREST: "{name} has no edge, so no forest",
    Code.ONE_FOREST: "{name} has forest 0 alone",
    Code.FORESTS: "{name} has forests 0 to {last}",
    # programs in files
    Code.NO_FUNCTION: "{file} has no function {missing}",
    Code.TOO_MANY_MARKS: "more than {most_marks} marks over one letter",
    Code.NESTED_TOO_DEEP: "it is nested too deep for Python",
    Code.NOT_COMPILED: "{why}",
    Code.FUNCTION_GONE: "{file} has no function {names} when it is run again",
    Code.NO_PULSE_RETURNED: "`last_pulse` returns {last}, which is no pulse",
    Code.NO_WORDS_RETURNED: "`result` returns {returned}: it must be words on one line",
    Code.NOTHING_TO_DRAW_RETURNED: (
        "`drawn` returns {pair} at the node of identifier {identifier}: it must be a pair, "
        "a colour below {colours} or None, and a port or None"
    ),
    Code.NOT_REPEATED: (
        "{where} does something else the second time: does it use chance other than "
        "`me.random`, or a variable outside `me`?"
    ),
    Code.VARIABLE_CHANGED: (
        "{where} changes the variable `{name}` outside `me`: keep everything in `me`, since "
        "orders of events play on copies of it"
    ),
    Code.NO_TRUTH_RETURNED: (
        "`{function}` returns {returned}: it must be True, False, or what isn't right in "
        "words on one line"
    ),
    Code.NOT_PYTHON: "{why}",
    Code.RAISED: "{why}{function:?, in ~}",
    Code.NOTHING_TO_SEND: (
        "{where} returns a {kind}: one payload for all ports, a list with a payload or None "
        "for each port, or None can be sent"
    ),
    Code.LIST_OF_OTHER_LENGTH: "{where} returns a list of {payloads} for {ports} ports",
    Code.SENDS_NO_PAYLOAD: "{where} sends {slot}: {why}",
    Code.SENDS_IN_LAST_PULSE: "{where} sends something, and {pulse} is the last pulse",
    Code.CANT_BE_COPIED: (
        "what `me` keeps can't be copied and compared, as each order of events needs it "
        "({why}): keep plain values there"
    ),
    Code.NO_ROUNDS: (
        "{file} has a function `on_{word}`, so its nodes make no rounds: only `explore`, "
        "`simulate`, `transcript check`, `picture run` and `watch`, and the studio take such a "
        "file"
    ),
    Code.RETURNS_SOMETHING: (
        "{where} returns {returned}: it returns nothing, and sends with `me.send`"
    ),
    Code.MAY_ACT_NO_TRUTH: "`may_act` returns {returned}: it must be True or False",
    Code.CHANGES_ME: "{function} changes `me`: it only says what is so",
    Code.NO_WORD_OF_MESSAGE: (
        "the function `{begin}{word}` is of no word: a word has small letters alone"
    ),
    Code.HALF_OF_OWN_STEP: (
        "it has a function `{has}` and no function `{lacks}`: a step of a node's own needs both"
    ),
    Code.LACKS_FUNCTIONS_OF_REACTING: (
        "{why}; it has `{begin}{word}`, so its nodes react to messages, without rounds"
    ),
    Code.NODE_NOT_REPEATED: (
        "the node of identifier {identifier} does something else the second time: does it "
        "use chance other than `me.random`, or a variable outside `me`?"
    ),
    # runs and schedules
    Code.NO_FUNCTION_RIGHT: (
        "--networks is for a file with a function `right`, and {program} has none"
    ),
    Code.OTHER_IN_OTHER_ORDER: (
        "{program} does something else in another order of events: does it use chance other "
        "than `me.random`, or a variable outside `me`? ({what})"
    ),
    Code.TOO_MANY_FOR_SCHEDULES: (
        "{name} has {nodes} nodes, and every schedule is played of at most {most}"
    ),
    Code.TOO_MANY_WITHOUT_RIGHT: (
        "{name} has {nodes} nodes, and every schedule is played of at most {most} (of more "
        "the rounds are, if the file has a function `right`)"
    ),
    Code.TOO_MANY_STATES: (
        "there are more than {limit:,} states: --reduce leaves most of them out, --limit "
        "allows more, at some {each} bytes each"
    ),
    Code.TOO_MANY_STATES_LEFT: (
        "there are more than {limit:,} states: --limit allows more, at some {each} bytes each"
    ),
    Code.EVENT_REFUSED: "`{event}` isn't possible there{missing} ({word})",
    Code.OVERTAKES: "`{event}` overtakes another message, and links keep their order",
    Code.NO_EVENT: "`{event}` is no event (NoEvent)",
    Code.NO_EDGE: "{name} has no edge {v}-{w}",
    Code.NO_NODE: "{name} has no node {v}: its nodes are 1 to {nodes}",
    Code.STEP_NOT_POSSIBLE: "step {number} of the list, {step}, isn't possible there",
    Code.EVENT_NOT_POSSIBLE: "`{event}` isn't possible there",
    Code.RUNS_OF_ROUNDS: (
        "--runs is for a file whose nodes react to messages, and {program} has rounds"
    ),
    Code.NO_SYNCHRONISER: ("{program} has no synchroniser: of its rules only fifo can be left out"),
    Code.NOTHING_TO_REDUCE: (
        "--reduce is for nodes under the synchroniser, and {program} has none"
    ),
    Code.TOO_MANY_STATES_OF_REACTING: (
        "there are more than {limit:,} states: --runs 100 plays a hundred runs instead, and "
        "--limit allows more, at some {each} bytes each"
    ),
    Code.STATES_GROW: (
        "what the nodes keep or the links hold grows too large: after {expanded:,} states it has "
        "more than {most:,} parts. Does it grow without end?"
    ),
    Code.RUN_WITHOUT_END: ("a run under the policy {policy} hasn't ended after {most:,} events"),
    Code.RUN_NOT_ENDED: "the run hasn't ended after {most:,} entries",
    Code.TOO_MANY_UNDER_WAY: (
        "the run can't end within {most:,} entries (messages sent and not yet taken: {under_way:,})"
    ),
    # pictures
    Code.NO_PARENT_OF_NODE: "forest {forest} gives no parent to node {node}",
    Code.NO_PARENT: "forest {forest} gives no parent to any node",
    Code.GOES_RIGHT: "{where} without {without}",
    Code.FILM_TOO_LONG: (
        "a film has at most {most:,} messages, and these rounds have {messages:,}: use the "
        "kind player"
    ),
    Code.NO_TEXT_TO_DRAW: "there is no {form} to draw",
    Code.NO_FORESTS: "{name} has no forests",
    Code.NO_CHANNELS_OF_PROGRAM: "{name} has no channels",
    Code.NO_NODE_TO_DRAW: "no node, so nothing to draw",
    Code.RUN_TOO_LONG_TO_DRAW: (
        "{kind} draws a run of at most {most:,} wires, and one of {name} has more than " "{wires:,}"
    ),
    Code.TWO_RUNS_WITHOUT_ROUNDS: (
        "two runs are compared pulse by pulse, and the nodes of {name} make none: give one run"
    ),
    Code.TWO_RUNS: "a page has room for two runs",
    Code.ONE_STANDARD_INPUT: "standard input has one text: name a file for each other one",
    Code.PLAN_NOT_PROPER: (
        "the plan is not proper: neighbours {node} and {neighbour} share channel {channel} (C4)"
    ),
    Code.TOO_MANY_PULSES: "{last} pulses of {nodes} nodes are too many to be drawn",
    Code.NO_NODE_BEGINS_PULSE: "no node begins pulse {pulse}",
    Code.TOO_MANY_STATES_TO_DRAW: (
        "schedules draws at most {most:,} states, and {name} has more: leave out an edge or "
        "a node"
    ),
    Code.OUTSIDE_OF_RUN: "{what} {first} to {last} are not among 0 to {greatest}",
    Code.NODES_OF_TRANSCRIPT: "{nodes} nodes, and {name} has {of_network} (Nodes)",
    Code.TOO_MANY_ENTRIES: (
        "pulses {first} to {last} have {entries:,} entries, and a page shows at most "
        "{most:,}: name fewer with --pulses"
    ),
    Code.NO_NODE_OF_NETWORK: "{name} has no node {node}",
    Code.NODE_IN_NO_FOREST: (
        "node {node} of {name} is in no forest, so no message decided its channel"
    ),
    Code.TOO_MANY_OF_KIND: (
        "{kind} draws at most {most} {what}, and here are {count}: use {instead}"
    ),
    Code.OPTION_OF_ROUNDS: ("--{option} is for runs of rounds, and the nodes of {name} make none"),
    # the workshop
    Code.NO_LIBSECCOMP: (
        "what is submitted is graded with a list of calls, for which libseccomp isn't here: "
        "`apt install libseccomp2`"
    ),
    Code.CALLS_NOT_WRITTEN: "libseccomp can't write the list of calls: {why}",
    Code.NO_BUBBLEWRAP: (
        "what is submitted is graded in bubblewrap, which isn't here: `apt install "
        "bubblewrap`, or {instead}"
    ),
    Code.BUBBLEWRAP_REFUSES: ("bubblewrap (0.8 or later) can't start here ({why}): {instead}"),
    Code.CHECK_ENDS: "forestplan check ends with status {status}: {line}",
    Code.PLAIN_ENDS: "forestplan plain ends with status {status}: {why}",
    Code.NETWORK_REFUSED: "{name} {command} refuses {network}: {why}",
    Code.NOT_STARTED: "{why}",
    Code.FOLDER_NOT_READ: "{why}",
    Code.NO_SUBMISSION: "{folder} has no folder of a submission in it",
    Code.FOLDER_IS_A_LINK: "its folder is a link",
    Code.NO_PROGRAM_OF_ASSIGNMENT: "no program",
    Code.PROGRAM_CANT_BE_RUN: ("{name} can't be run: it has to be compiled, or `chmod +x {name}`"),
    Code.COMMANDS_IS_A_LINK: "`commands` is a link",
    Code.COMMANDS_NOT_READ: "`commands`: {why}",
    Code.SEVERAL_COMMANDS: "`commands`: `--` stands between commands, and one is played",
    Code.OUTSIDE_OF_FOLDER: (
        "`commands`: {word}: files are named as they are in the folder itself, without `/`, "
        "`@` and `..`"
    ),
    Code.FOLDER_TOO_LARGE: (
        "its folder has more than {megabytes} megabytes or {files:,} files, or is too deep"
    ),
    Code.PIPE_IN_FOLDER: "its folder has a named pipe or a device in it: {name}",
    Code.SEVERAL_PROGRAMS: "{names}: which one?",
    Code.REPLAY_ENDS: "forestplay replay ends with status {status}: {line}",
    # addresses of the studio
    Code.NO_NODE_OF_ADDRESS: "there is no node {node}: there are {nodes}, from 1 on",
    Code.NO_LINK: "there is no link {said}",
    Code.NO_WHOLE_NUMBER: "`{said}` is no whole number of at most six digits",
    Code.NUMBER_OUTSIDE: "it is a number from {low} to {high:,}",
    Code.NUMBER_FROM_0: "it is a number from 0 on",
    Code.NO_STEP: "`{said}` is no step, as 3, 2-1 or 2-1-4",
    Code.TOO_MANY_STEPS: "it has {steps:,} steps, and at most {most:,} are made by hand",
    Code.TOO_MANY_CHANNELS: "it has {channels:,} channels, and there are {nodes} nodes",
    Code.NO_RULE: "there is no rule {rule}: there are {rules}",
    Code.RULE_TWICE: "a rule is there twice: there are {rules}",
    Code.NOT_AMONG: "there are {names}",
    Code.ADDRESS_TOO_LONG: ("an address has at most {most:,} letters, and this has {letters:,}"),
    Code.ADDRESS_NOT_READ: "{unread}",
    Code.NO_SUCH_NAME: "an address has no such name",
    Code.NAME_TWICE: "it is there twice",
    Code.NO_ADDRESS: "`{host}` has no #, after which an address says what it shows",
    Code.NO_DARE_IN_ADDRESS: "it has no dare",
    Code.NO_NETWORK_IN_ADDRESS: "it has no network",
    Code.NO_LETTER_OF_PERCENT: "the % in `{said}` stands for no letter",
    Code.PART_OF_NETWORK: "the network has a part `{part}`, and such parts {said}",
    Code.NO_PLACE: "the network has a node at `{spot}`, and a place is X.Y",
    Code.OF_NO_NODE: "the network says `{pair}`, which is of none of its {nodes} nodes",
    Code.WRONG_EDGE: "the network has a wrong edge, `{edge}`",
    Code.EDGE_TWICE: "the network has the edge `{v}-{other}` twice",
    Code.IDENTIFIER_NO_NUMBER: (
        "the identifier of node {node} is `{said}`, and has to be a whole number"
    ),
    Code.TWO_IDENTIFIERS: "node {node} has two identifiers",
    Code.CHANNEL_NOT_TO_BAR: (
        "the channel `{said}` is barred at node {node}, and channels are 1 to {most}"
    ),
    Code.BARRED_TWICE: "the channel {channel} is barred twice at node {node}",
    Code.TWO_NAMES: "node {node} has two names",
    Code.NO_DARE: "there is no dare {dare}",
    Code.NO_TWO_JOINED: "no two nodes are joined",
    Code.NO_LESSON_OF_STEP: "it is a step of a lesson, and no lesson is named",
    # calls of the studio
    Code.NO_NODE_YET: "no node yet",
    Code.PASSES: "there are 1 to {most} passes",
    Code.NO_NODE_AS_ROOT: "there is no node {root} that could be the root",
    Code.NO_SUCH_RULE: "there is no such rule",
    Code.NO_ROUNDS_HERE: (
        "{program} has no rounds: its nodes react to each message (its file has a function "
        "`on_{word}`); the tab Adversary plays it"
    ),
    Code.ROUNDS_HERE: "{program} has rounds: what a node sends at once is asked of files without any",
    Code.HAS_ROUNDS: "{program} makes rounds: choose the program of this step again",
    Code.OTHER_FORM: (
        "its nodes made rounds when the studio began, and react to messages now, or the other way "
        "round: end the studio and begin it again"
    ),
    Code.NO_FILE_OF_PROGRAM: "there is no file of your own of the name {name}",
    Code.NO_NODE_OF_FIELD: "the field node: there is no node {node}",
    Code.ONE_IDENTIFIER_NOW: (
        "nodes {node} and {other} have one identifier now: give one of them another"
    ),
    Code.TOO_MANY_TO_DRAW: "the studio draws at most {most} nodes, and here are {nodes}",
    Code.TOO_MANY_FOR_RUN: (
        "A run without a clock, and its steps, can be seen of at most {most} nodes, and this "
        "network has {nodes}: the tabs Draw and Check show it, or open a smaller example"
    ),
    Code.TOO_MANY_FOR_ROUNDS: (
        "The rounds can be seen of at most {most} nodes, and this network has {nodes}: the "
        "tabs Draw and Check show it, or open a smaller example"
    ),
    Code.NO_RT: (
        "the toolchain's command rt is not on the PATH, and without it nothing can be proved"
    ),
    Code.NOTHING_BUILT: "nothing is built without the studio's server",
    Code.NO_TEXT: "a text is asked for",
    Code.HALF_A_LETTER: "a text of whole letters is asked for, and this has half of one",
    Code.NO_NUMBER_IN_FIELD: "a whole number is asked for",
    Code.NUMBER_OF_FIELD_TOO_GREAT: "a whole number of at most {most:,} is asked for",
    Code.NO_TRUTH: "true or false is asked for",
    Code.NO_BASE_64: "bytes in base 64 are asked for",
    Code.ASKED_FOR: "{what} is asked for",
    Code.NO_OBJECT: "an object is asked for",
    Code.NOT_THERE: "there is no {name}: there are {names}",
    Code.NO_FIELD: "the call has no field {name}: it has {known}",
    Code.FIELD_MISSING: "the call lacks its field {name}",
    Code.FIELD_REFUSED: "the field {name} of the call: {why}",
    Code.NO_CALL: "a call is an object in JSON",
    Code.FIELD_TWICE: "the call has its field {name} twice",
    Code.OUTPUT_TOO_LONG: "{name} wrote {bytes_written:,} bytes, more than a page can show",
    Code.PROGRAM_REFUSES: "{why}",
    Code.PROGRAM_ENDED: "{name} ended with status {status}",
    Code.OTHER_ROUNDS: "the rounds of forestplay aren't those of the definitions",
    Code.NO_EXAMPLE: "there is no example {name}",
    Code.EXAMPLE_AND_NETWORK: "the address has an example and a network: one of them",
    Code.TWO_NETWORKS: "the address has two networks: one of them",
    Code.NO_TEXT_OF_NETWORK: "this is no text, so no network can be read from it",
    Code.NUMBER_ASKED_FOR: "a whole number from 0 to 999,999,999 is asked for",
    Code.TOO_MANY_TO_MAKE: "the studio draws at most {most} nodes",
    Code.OPTIONS_REFUSED: "{why}",
    Code.NO_PULSE: "the field pulse: there is no pulse {pulse}, only 1 to {last}",
    Code.NO_COLOUR_YET: "no node has a colour yet: go on to pulse 1",
    Code.NO_FOREST_OF_FIELD: "the field forest: there is no forest {forest}",
    Code.PLAN_OF_FIELD: "the field plan: a channel from 0 on is asked for of {nodes} nodes",
    Code.NO_RULE_LEFT_OUT: "which rule is left out?",
    Code.PICTURE_TOO_LARGE: (
        "the picture {kind} has room for at most {most} nodes, and this network has {nodes}: "
        "the pictures plan and results have room for them"
    ),
    Code.NO_TRANSCRIPT_OF_FIELD: (
        "the call lacks its field transcript: a picture of a run is of one"
    ),
    Code.NO_TWO_PULSES: ("the field pulses: the first and the last one are asked for, or none"),
    Code.NOT_IN_NETWORK: (
        "the fields slow, lazy: a link or a node that waits isn't in this network"
    ),
    Code.NO_POLICY: "the call lacks its field policy: a run by a seed has one",
    Code.NO_THREADS: (
        "threads run the proved programs, which aren't built yet: take a run by a seed"
    ),
    Code.TOO_MANY_STEPS_BY_HAND: (
        "at most {most:,} steps are made by hand; No clock plays the rest"
    ),
    Code.RUN_TOO_LONG: (
        "a run of this network has more than {wires:,} messages, and Python plays at most "
        "{most:,}: take the threads, which are quick"
    ),
    Code.RUN_TOO_LONG_UNBUILT: (
        "a run of this network has more than {wires:,} messages, and Python plays at most "
        "{most:,}: open a smaller example, or build the proved programs, whose threads are "
        "quick"
    ),
    Code.OWN_FILE: "a file of your own, as NAME.py, of another name than the others",
    Code.PORT_REFUSED: "port {port}: {why}",
    Code.FOLDER_NOT_EMPTY: "it isn't an empty folder: name a new folder, or an empty one",
    Code.NOT_PUBLISHED: "it can't be written: {why}",
    Code.NO_PORT: "there is no port {port}",
    Code.NO_LESSON: "the field lesson: there are the lessons 1 to {lessons}",
    Code.NO_STEP_OF_LESSON: "the field step: lesson {lesson} has the steps 1 to {steps}",
    Code.NO_EXERCISE: "this step has no exercise that is judged here",
    Code.NO_ROW_YET: "the {nodes} transmitters aren't one row yet",
    Code.ROW_OF_NONE: "draw {nodes} transmitters first",
    Code.ROW_OF_ONE: "the row has {nodes} transmitters, and here is {here}",
    Code.ROW_OF_OTHER_LENGTH: "the row has {nodes} transmitters, and here are {here}",
    # the build
    Code.NO_NAME_FOR_A_PROGRAM: (
        "a program's name is one word of at most 20 small letters, a to z"
    ),
    Code.NAME_TAKEN: "there is a crate or a program of this name",
    Code.NO_COMMIT: "git knows no commit {rev}",
    Code.NO_WRONG_BODY: "there is no crates/{crate}/wrong-bodies/{edit}",
}

# The words of docs/claim/FORMATS.md for what is wrong with a transcript.
WORDS = {
    Code.NO_ENTRY: "X1",
    Code.NO_ENTRY_AT_END: "X1",
    Code.NO_TRANSCRIPT: "X1",
    Code.NETWORK_AND_NO_TRANSCRIPT: "X1",
    Code.NO_TRANSCRIPT_IN_ENCODING: "X1",
    Code.NO_ORDER_OF_ENTRIES: "X1",
    Code.WRONG_PROGRAM: "WrongProgram",
    Code.NODES: "Nodes",
    Code.NO_SUCH: "NoSuch",
    Code.NOT_READY: "NotReady",
    Code.NOTHING_TO_PUT: "NothingToPut",
    Code.LINK_EMPTY: "LinkEmpty",
    Code.PUT_LATER: "LinkEmpty",
    Code.TAKEN_BEFORE_PUT: "LinkEmpty",
    Code.WRONG_WIRE: "WrongWire",
    Code.WRONG_STAMP: "WrongStamp",
    Code.OUT_OF_ORDER: "WrongStamp",
    Code.NOT_WHOLE: "NotWhole",
    Code.STUCK: "NotWhole",
    Code.NOT_RIGHT: "NotRight",
    Code.EDITION_OF_ROUNDS: "WrongProgram",
    Code.EDITION_OF_REACTIONS: "WrongProgram",
    Code.STEP_NOT_READY: "NotReady",
    Code.HAS_PULSES: "X1",
    Code.NO_WIRE_OF_SYNCHRONISER: "X1",
}


class Sentence(string.Formatter):
    """Fills a sentence. `{name:?, is it ~?}` is nothing if the name's value is None or empty, and else what follows the
    first question mark, with the value in place of `~`; `{count:#node}` is `1 node` or `2 nodes`.
    """

    def format_field(self, value: object, format_spec: str) -> str:
        if format_spec.startswith("?"):
            return "" if value in (None, "") else format_spec[1:].replace("~", str(value))
        if format_spec.startswith("#"):
            ending = "" if value == 1 else "s"
            return f"{value:,} {format_spec[1:]}{ending}"
        said: str = super().format_field(value, format_spec)
        return said


def sentence_of_entry(code: Code, place: str, subject: Mapping[str, object]) -> str:
    """The sentence of what is wrong with a transcript, with its word: `line 3: LinkEmpty: ..`."""
    said = sentence_of(code, "", subject)
    return ": ".join(filter(None, [place, WORDS[code], said]))


def sentence_of(code: Code, place: str, subject: Mapping[str, object]) -> str:
    """The sentence of a fault; `place` is empty if it isn't about a text.

    >>> sentence_of(Code.SECOND_EDGE_LIMIT, "", {"most": 3})
    'more than 3 different edges (F7)'
    """
    said = Sentence().vformat(SENTENCES[code], (), subject)
    return f"{place}: {said}" if place else said
