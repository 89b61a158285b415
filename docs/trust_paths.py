#!/usr/bin/env python3
"""Writes docs/TRUST.md and the pages in docs/trust out of the definitions in crates/*/specs.

    docs/trust_paths.py [--check]

For each of twelve promises it follows the definitions that the promises of a run (`Ends`, `ServesWords`, `CallsWords` and `ListensWords`
in crates/amf_cli/specs, which the contract of `run` cites) name, from name to name by the imports of each file, and lists them in an order in
which they can be read, on a page for each promise; what a page before has is linked. What a file says is its own first sentence, and what a
definition says is the comment above it, or its sentence in docs/trust_words.txt. With --check nothing is written, and the status is 1 if a
page is not what would be written.
"""
import re
import sys
import textwrap
from pathlib import Path

ROOT = Path(__file__).resolve().parent.parent
PAGE = ROOT / "docs/TRUST.md"
PAGES = ROOT / "docs/trust"
WORDS = ROOT / "docs/trust_words.txt"
RUN = [ROOT / f"crates/amf_cli/specs/{name}.antt" for name in ("Ends", "ServesWords", "CallsWords", "ListensWords")]

FRONT = """# What a reader has to trust

A proof says that the code meets its contract. What the contract means is said in small files of definitions, and a wrong one would make
every proof above it worthless. So these files, with the contracts on the functions in `crates/NAME/src`, are what has to be read to know
what is promised. The toolchain, and what else is trusted, are named in [PROMISES.md](PROMISES.md#what-it-stands-on).

Nobody has to read all of them. Each of the twelve pages below lists what one promise rests on, in an order in which it can be read: each file,
those of its definitions that the promise needs, with a sentence for each, and how many lines these have. Much of a later page is known from
an earlier one, and is linked there: what that page tells of a file, or the names behind the link.

PAGES

"New" are the lines that no page above has: about an hour each. `serve` has two pages, the first for what one connection is answered, and
`listen` has two, the second for the law of both ends. Any other page ends with the definitions that the program's contract itself names. That
contract is `Ends`, for `serve` with `ServesWords`, for `call` with `CallsWords` and for `listen` with `ListensWords`, in
`crates/amf_cli/specs`; `run`, `start` and `start_with_services` cite it, the last for the services in `shipped` of
`crates/amf_service/specs/Shipped.antt`. Behind the definitions stand the laws and worked facts about them: theorems, and bytes and graphs
worked out by hand. They are proved *about* the definitions, and are where to look first when one is in doubt. Together there are
DEFINITIONS lines of definitions and DEVICES of devices; `specs/Lib.antt` of each crate lists its files.

These pages are written by `docs/trust_paths.py`, which follows the imports. What they say of a file is the file's own first sentence. What
they say of a definition is the comment above it, or a sentence of `docs/trust_words.txt`; neither is checked by the prover, so read the
definition.

## Devices

Besides the definitions there are devices of the proofs. They are listed at the end of each `specs/Lib.antt`, and most say so in their first
line. A wrong one can make a proof fail, but cannot make a promise false that does not speak of it. Of the promises about a run of the
program only that of `rtmp` speaks of devices: `Layout` and `Repeated` of `amf_io`, by which the fields of a chunk stream are defined, and
which stand on its page. No promise about a Flex message speaks of one. Of the promises of the libraries these do:

- laws about layouts, and the trait `Format`;
- the calls by which a reader of another format reads on: those of `amf_wire_fields`, `append_field`, `append_raw`, `append_exactly` and
  `append_basic` of `amf_io`, `read_text` and `read_value` of `amf3_read`, and `read_short_text` and `read_value0` of `amf0_read`;
- the readers and laws of `rtmp_chunks`, which speak of the layouts of `amf_io`;
- the calls by which a packet is told part by part: `HeaderTexts` and `MessageTexts` of `amf_text_write`, which speak of `Laid`, `Tells` and
  `Parts`;
- the parts of the reader of JSON texts: `amf_text_pages`, `amf_text_gather` and `amf_text_graphs`;
- the steps that the gateway's crates share: `amf_answer_plan`, `amf_flex_replies` and `amf_plain_calls`.

Of the laws these do, and whoever goes by one has to read as much of the device as is named:

| Promise | Device |
|---|---|
| spellings of a height by bytes: `more_height_spells` | `Spells` in `amf3_spelling/specs/ByteSpelling` |
| one walk finds the first lack: `met_again_is_twice` | `amf0_spelling/specs/LacksMet` |
| what the tables of a writer are, seen as lists | `Spelled` in `amf_tables/specs/SpelledNodes` |
| what a command that words ask for does: `perform` | `IsAskable` in `amf_commands/specs/Askable` |
| each message is taken in order: `each_is_taken_once`, `replay` | `rises_by` in `amf_broker/specs/Sound` |
| an FLV file or a chunk stream has one verdict: `files_have_one_verdict` of `flv_meta`, `one_verdict` of `rtmp_chunks` | `IsJudgedToEnd` and `IsJudgedOnceToEnd` in `amf_io/specs/Repeated` |

"""

# Each crate with definitions, in reading order.
TITLES = {
    "amf_wire": "Numbers, texts and doubles",
    "amf_io": "The outside, fields and the verdict",
    "amf_graph": "Graphs",
    "amf_sheet": "Graphs told in any order",
    "amf3_spelling": "AMF 3",
    "amf3_layout_laws": "The verdict on AMF 3",
    "amf3_respell_laws": "AMF 3 spelled anew without a graph",
    "amf_tables": "Reference tables",
    "amf0_spelling": "AMF 0",
    "amf0_layout_laws": "The verdict on AMF 0",
    "amf0_kinds": "Graphs that AMF 0 has as they are",
    "amf_iso": "The order of the nodes",
    "amf_wire_fields": "Reading fields",
    "amf3_read": "Reading AMF 3",
    "amf3_write": "Writing AMF 3",
    "amf0_read": "Reading AMF 0",
    "amf0_write": "Writing AMF 0",
    "amf_packet": "Packets",
    "amf_sol": "Shared object files",
    "amf_show": "The listing of a graph",
    "amf_text": "The JSON text of AMF data",
    "amf_text_trees": "What is gathered of a text, token by token",
    "amf_text_laws": "There and back through the JSON text",
    "amf_text_write": "Writing the JSON text",
    "amf_text_read": "Reading the JSON text",
    "amf_listings": "The listings of packets and of shared object files, and their laws",
    "amf_json": "The JSON text of what was read",
    "amf_text_pages": "What a JSON text says, as it is gathered",
    "amf_text_gather": "Gathering what a JSON text says",
    "amf_text_graphs": "The graphs of a JSON text",
    "amf_text_draft": "Reading what a JSON text means",
    "amf_bytes": "The bytes of a JSON text",
    "flv_meta": "FLV script data",
    "rtmp_chunks": "RTMP chunk streams",
    "rtmp_rechunk": "Rechunking, and the pass over a chunk stream",
    "rtmp_listing": "The listing of a chunk stream",
    "amf_media": "Jobs on media",
    "amf_vectors": "Values that are made",
    "amf_options": "The options of a command line",
    "amf_commands": "The commands of data",
    "flex_msgs": "Flex messages",
    "amf_service": "Services",
    "amf_broker": "The broker",
    "amf_desk": "The desk",
    "http_link": "Both ends of HTTP",
    "http_backend": "Asking a backend",
    "amf_http": "The HTTP front",
    "amf_once": "Polls that survive losses",
    "amf_client": "Calling the gateway",
    "amf_dial_and_call": "One call over a dial",
    "amf_poll_session": "A session of polls over a dial",
    "amf_answer_plan": "What a link is answered",
    "amf_answer_laws": "The laws of what a link is answered",
    "amf_self_call_laws": "What comes back of a call",
    "amf_self_call": "A call over memory",
    "amf_flex_replies": "Replies to Flex clients",
    "amf_plain_calls": "Plain calls",
    "amf_gateway": "The gateway",
    "amf_workers": "Workers at one desk",
    "amf_cli": "The program",
}

# Files that say what is proved about the definitions: theorems, and bytes and graphs worked by hand.
ABOUT = re.compile(r"Worked|Laws|Facts$|^Agreement|^OneShortest$|^GraftKeeps$|^Tried$")

# What the program's own promise says of its services.
SHIPPED = ("amf_service", "Shipped", "shipped")

# What the promises of a run name for one kind of command alone.
OF_SERVE = ["amf_service.", "amf_answer_plan.", "amf_gateway.", "amf_workers.", "amf_cli.Serving.", "amf_commands.Commands.ReadsServe",
            "amf_commands.Commands.IsServing"]
OF_DATA = ["amf_commands.Run.", "amf_commands.Input.", "amf_commands.Commands.Reads", "amf_graph."]
OF_FLV = ["amf_media.FlvRuns.", "amf_commands.Commands.ReadsFlv"]
OF_RTMP = ["amf_media.RtmpRuns.", "amf_commands.Commands.ReadsRtmp"]
OF_MEDIA = [*OF_FLV, *OF_RTMP, "amf_cli.MediaEnds.", "amf_commands.Commands.IsMedia"]
OF_BYTES = ["amf_bytes.", "amf_text_pages.", "amf_cli.BytesEnds.", "amf_commands.Commands.ReadsBytes"]
OF_CALL = ["amf_cli.CallEnds.", "amf_commands.Commands.ReadsCall", "amf_commands.Commands.IsCalling"]
OF_LISTEN = ["amf_cli.ListenEnds.", "amf_commands.Commands.ReadsListen", "amf_commands.Commands.IsListening"]
OF_LINKS = [*OF_CALL, *OF_LISTEN, "amf_commands.Commands.IsDialling"]

# The crates that speak of media, of calls, of JSON texts, and of none of the promises.
MEDIA = ["flv_meta", "amf_media", "rtmp_chunks", "rtmp_rechunk", "rtmp_listing"]
SELF_CALLS = ["amf_self_call_laws", "amf_self_call"]
CALLS = ["amf_client", "amf_dial_and_call", "amf_poll_session", *SELF_CALLS]
TEXTS = ["amf_text", "amf_text_write", "amf_json", "amf_commands.Told", "amf_bytes", "amf_text_pages", "amf_text_read", "amf_cli.BytesEnds"]
OTHERS = ["amf_vectors", "amf_once"]
FILES = ["amf_packet", "amf_sol", "amf_listings"]

# For each promise: its page, its words, what is cited for other commands alone, the crates or files that speak of other commands and formats, and the
# files of `amf_cli` that belong to it whole.
PATHS = [
    ("canon", "To trust `canon` on values",
     "That the output of `amf canon` is the one canonical encoding of the value in the input, from and to AMF 3 "
     "and AMF 0, that a refusal names the first invalid field, and that status 7 names the first node without an encoding.",
     [*OF_SERVE, *OF_MEDIA, *OF_LINKS, *OF_BYTES], [*FILES, "amf_show", *OTHERS, *TEXTS, *MEDIA, *CALLS], ["Ends"]),
    ("same", "To trust `same`",
     "That `amf same` says `same` exactly where two values of AMF 3 are the same graph.",
     [*OF_SERVE, *OF_MEDIA, *OF_LINKS, *OF_BYTES], [*FILES, "amf_show", *OTHERS, *TEXTS, *MEDIA, *CALLS, "amf0_spelling",
                "amf3_spelling.Lacks3", "amf_graph.Lacks", "amf_graph.Order"], ["Ends"]),
    ("sol", "To trust a `.sol`",
     "That `amf show`, `check` and `canon` with `--from sol` say what stands in a shared object file, or where it is damaged.",
     [*OF_SERVE, *OF_MEDIA, *OF_LINKS, *OF_BYTES], ["amf_packet", *OTHERS, *TEXTS, *MEDIA, *CALLS, "amf_listings.SamePacket", "amf_listings.PacketListing",
                "amf_listings.PacketNodes", "amf_listings.PacketLaws"], ["Ends"]),
    ("json", "To trust `json`",
     "That the output of `amf json` is the canonical JSON text of what stands in the input, and that this text means it, but for the numbers of "
     "nodes, and in AMF 0 with integers in place of doubles.",
     [*OF_SERVE, *OF_MEDIA, *OF_LINKS, *OF_BYTES], ["amf_show", *OTHERS, *MEDIA, *CALLS, "amf_listings.PacketListing", "amf_listings.PacketNodes",
                "amf_listings.FileListing", "amf_listings.PacketLaws", "amf_listings.FileLaws", "amf_packet.PacketLacks",
                "amf_sol.FileLacks", "amf3_spelling.Lacks3", "amf0_spelling.Lacks0", "amf_graph.Lacks"], ["Ends"]),
    ("bytes", "To trust `bytes`",
     "That the output of `amf bytes` is the canonical encoding of what the JSON text in the input means, that a refusal names the "
     "first token that is wrong, and that the graphs which a text means weigh at most four times its bytes.",
     [*OF_SERVE, *OF_MEDIA, *OF_LINKS, "amf_commands.Run."], ["amf_show", *OTHERS, *MEDIA, *CALLS, "amf_listings.PacketListing", "amf_listings.PacketNodes",
                "amf_listings.FileListing", "amf_listings.PacketLaws", "amf_listings.FileLaws", "amf_packet.PacketLacks"], ["BytesEnds"]),
    ("answer", "To trust an answer of `serve`",
     "That what a connection is sent is the definition's answer to the bytes that came: what a request means, which calls of "
     "services and of the broker it makes, and which bytes tell what they gave.",
     [], ["amf_sol", "amf_show", "amf_listings", *OTHERS, *TEXTS, *MEDIA, *CALLS], [], "amf_answer_plan.Respond"),
    ("serve", "To trust `serve`",
     "That each connection is answered as the definition says, and that all connections have one legal history of the broker.",
     [*OF_DATA, *OF_MEDIA, *OF_LINKS, *OF_BYTES], ["amf_sol", "amf_show", "amf_listings", *OTHERS, *TEXTS, *MEDIA, *CALLS], ["ServesWords"]),
    ("flv", "To trust `flv`",
     "That `amf flv` lists the metadata of an FLV file, or writes the file without them or with others, and all else as it was.",
     [*OF_SERVE, *OF_DATA, *OF_RTMP, *OF_LINKS, *OF_BYTES], [*FILES, *OTHERS, *TEXTS, *CALLS, "rtmp_chunks", "rtmp_rechunk", "rtmp_listing"],
     ["Ends", "MediaEnds"]),
    ("rtmp", "To trust `rtmp`",
     "That `amf rtmp` lists the messages of a chunk stream, or writes the same messages in chunks of another size.",
     [*OF_SERVE, *OF_DATA, *OF_FLV, *OF_LINKS, *OF_BYTES], [*FILES, *OTHERS, *TEXTS, *CALLS, "flv_meta"], ["Ends", "MediaEnds"]),
    ("call", "To trust `call`",
     "That `amf call` makes one call with the arguments that it was given, and writes what the bytes that come back mean.",
     [*OF_SERVE, *OF_DATA, *OF_MEDIA, *OF_LISTEN, *OF_BYTES], ["amf_sol", "amf_listings", *OTHERS, *TEXTS, *MEDIA, "amf_poll_session", *SELF_CALLS],
     ["CallsWords"]),
    ("listen", "To trust `listen`",
     "That `amf listen` sends the requests of one session, again where a connection was lost, and writes the bodies of each "
     "batch once and in order. That these are the messages that were published stands on [delivery](delivery.md).",
     [*OF_SERVE, *OF_DATA, *OF_MEDIA, *OF_CALL, *OF_BYTES],
     ["amf_sol", "amf_listings", "amf_vectors", *TEXTS, *MEDIA, "amf_dial_and_call", *SELF_CALLS], ["ListensWords"]),
    ("delivery", "To trust that `listen` loses nothing",
     "That what a listener has written is what was published while it was subscribed, each message once and in order: the law "
     "`what_was_published_is_written` of `amf_poll_session`, over the listener's session and the broker.",
     [], ["amf_sol", "amf_listings", "amf_vectors", *TEXTS, *MEDIA, "amf_dial_and_call", *SELF_CALLS], [], "amf_poll_session.Delivered"),
]

# Definitions stand at the margin, or two spaces in where a file has parameters for all of them.
DEFINITION = re.compile(r"^(?:(?:unfoldable |abbrev )*pub (?:record |data |abbrev )?(?!mod )|  (?:(?:unfoldable |abbrev )+pub |pub (?:record |data )))(\S+)")
USE = re.compile(r"^(?:ghost )?use Rattle\.(\w+)\.specs\.([\w.]+?)(?:\.\{(.*)\}|(?: as (\w+)))?;?$")
WORD = re.compile(r"[A-Za-z_][\w']*(?:\.[A-Za-z_][\w']*)*")


def words_of_file():
    """The sentences of docs/trust_words.txt, by file and name."""
    words, now = {}, {}
    for line in WORDS.read_text().splitlines():
        if line.startswith("  "):
            name, _, sentence = line.strip().partition(": ")
            now[name] = sentence
        elif line and not line.startswith("#"):
            now = words.setdefault(line.replace("/", "."), {})
    return words


def first_sentence(lines):
    """The comment at the beginning of a file, up to the first line that ends with a full stop."""
    said = []
    for line in lines:
        if not line.startswith("-- "):
            break
        said.append(line.removeprefix("-- "))
        if line.endswith("."):
            break
    return " ".join(said)


class Specs:
    """A file of definitions: its first sentence, its imports, and the text of each definition."""

    def __init__(self, crate, name, is_device, words):
        self.crate, self.name, self.is_device, self.words = crate, name, is_device, words
        self.lines = (ROOT / f"crates/{crate}/specs/{name}.antt").read_text().splitlines()
        self.says = first_sentence(self.lines)
        self.imports, self.aliases = imports_of(self.lines)
        self.blocks, self.parts = {}, {}
        self.gather()

    def gather(self):
        """Parts the file into definitions. The comment above a definition is its own, and a constructor stands for its data."""
        now, name, above = None, None, []
        for line in self.lines[1:]:
            found = DEFINITION.match(line)
            if found:
                name = found[1]
                now = self.blocks.setdefault(name, [])
                now += above
                above = []
            if line.lstrip().startswith("-- "):
                above.append(line)
                continue
            if not line.strip() or line.startswith("use "):
                above = []
            elif now is not None:
                # A comment that stands above a part is of the definition that has the part.
                now += above + [line]
                above = []
                part = re.match(r"^  (?:pub )?([a-z]\w*) :", line)
                if part:
                    self.parts.setdefault(part[1], name)

    def key(self):
        return f"{self.crate}.{self.name}"

    def sentence(self, name):
        """What a definition says."""
        above = []
        for line in self.blocks[name]:
            if not line.lstrip().startswith("-- "):
                break
            above.append(line.strip().removeprefix("-- "))
        if name not in self.words and not above:
            sys.exit(f"docs/trust_words.txt has no sentence for {name} of {self.crate}/{self.name}, and no comment stands above it")
        return self.words.get(name) or " ".join(above)


def imports_of(lines):
    """The names that a file imports with where they stand, and the files that it imports under a name of its own."""
    names, aliases = {}, {}
    for line in lines:
        use = USE.match(line)
        if not use:
            continue
        crate, module, listed, alias = use.groups()
        if alias:
            aliases[alias] = (crate, module)
        for item in (listed or "").split(","):
            told, _, own = item.strip().partition(" as ")
            if told:
                names[own or told] = (crate, module, told)
    return names, aliases


def load():
    """All files of definitions, in the order of the crates and of each Lib."""
    files = {}
    libs = {lib.parent.parent.name: lib for lib in ROOT.glob("crates/*/specs/Lib.antt")}
    # what the graphs of tests hold is no promise
    libs = {name: lib for name, lib in libs.items() if not name.endswith("_tests")}
    words = words_of_file()
    untitled = sorted(crate for crate, lib in libs.items() if crate not in TITLES and "pub mod" in lib.read_text())
    if untitled:
        sys.exit(f"docs/trust_paths.py: TITLES has no line for {', '.join(untitled)}")
    for crate in (crate for crate in TITLES if crate in libs):
        is_device = False
        for line in libs[crate].read_text().splitlines():
            is_device = is_device or bool(re.match(r"-- (A d|D)evice", line))
            found = re.match(r"pub mod (\w+)", line)
            if found:
                specs = Specs(crate, found[1], is_device, words.pop(f"{crate}.{found[1]}", {}))
                files[specs.key()] = specs
    gone = [*words, *(f"{key}.{name}" for key, specs in files.items() for name in specs.words if name not in specs.blocks)]
    if gone:
        sys.exit(f"docs/trust_words.txt has sentences for what is not there: {', '.join(gone)}")
    return files


def cited(files, left_out):
    """What the promises of a run name, but what is left out, by its name or by a beginning that ends in a dot, and what are devices."""
    names = [told for file in RUN for told in imports_of(file.read_text().splitlines())[0].values()] + [SHIPPED]
    found = []
    for crate, module, name in dict.fromkeys(names):
        specs, told = files.get(f"{crate}.{module}"), f"{crate}.{module}.{name}"
        is_left_out = any(told.startswith(one) if one.endswith(".") else told == one for one in left_out)
        if specs and not specs.is_device and not is_left_out:
            found.append((specs.key(), name))
    return found


def used(files, specs, name):
    """What one definition names: definitions of this project, and types of its code. An operator is named by its signs, and
    the one that joins steps by the arrows of `do`."""
    text = "\n".join(line for line in specs.blocks[name] if not line.startswith("--"))
    for sign in [*specs.imports, *specs.blocks]:
        if "◌" in sign and (all(f" {part} " in text for part in sign.split("◌") if part) or sign == "◌>>=◌" and " ← " in text):
            yield specs.imports.get(sign, (specs.crate, specs.name, sign))
    for word in WORD.findall(text):
        first, _, rest = word.partition(".")
        if first in specs.imports:
            yield specs.imports[first]
        elif first in specs.aliases and rest:
            yield (*specs.aliases[first], rest.split(".")[0])
        elif first in specs.blocks or first in specs.parts:
            yield (specs.crate, specs.name, first)


def closure(files, roots, stops):
    """The definitions to which the roots lead, by file; types of the code by their file; what is of other crates; and what was stopped at."""
    needed, types, others, stopped = {}, {}, {}, set()
    waiting = list(roots)
    while waiting:
        key, name = waiting.pop()
        specs = files[key]
        name = specs.parts.get(name, name) if name not in specs.blocks else name
        if name not in specs.blocks or name in needed.setdefault(key, set()):
            continue
        needed[key].add(name)
        for crate, module, told in used(files, specs, name):
            if crate not in TITLES:
                others.setdefault(crate, set()).add(told)
            elif module.startswith("declared."):
                parts = module.split(".")
                types.setdefault(f"{crate}/src/{'/'.join(parts[1:-1] if parts[-1] != 'TheVariants' else parts[1:-2])}.rt", set()).add(
                    parts[-2] if parts[-1] == "TheVariants" else parts[-1])
            elif f"{crate}.{module}" not in files:
                continue
            elif crate in stops or f"{crate}.{module}" in stops:
                stopped.add(f"{crate}.{module}")
            else:
                waiting.append((f"{crate}.{module}", told))
    return needed, types, others, stopped


def in_order(files, needed):
    """The files, each behind those that it imports, and else in the order of the crates."""
    order, done = [], set()

    def visit(key):
        stack = [(key, False)]
        while stack:
            now, is_ready = stack.pop()
            if is_ready:
                order.append(now)
            elif now not in done:
                done.add(now)
                stack.append((now, True))
                below = [f"{c}.{m}" for c, m, _ in files[now].imports.values()] + [f"{c}.{m}" for c, m in files[now].aliases.values()]
                stack += [(one, False) for one in reversed(below) if one in needed]

    for key in files:
        if key in needed:
            visit(key)
    return order


def about(files, needed):
    """The laws and worked facts that speak of these definitions and of one another alone."""
    known = set(needed)
    found = []
    for key, specs in files.items():
        if ABOUT.search(specs.name) and not specs.is_device and key not in known:
            below = {f"{c}.{m}" for c, m, _ in specs.imports.values()} | {f"{c}.{m}" for c, m in specs.aliases.values()}
            below &= set(files)
            if below and below <= known | set(found):
                found.append(key)
    return found


def wrapped(paragraph, indent=""):
    """The lines of a paragraph, none of them too long, the later ones behind an indent."""
    return textwrap.wrap(paragraph, width=140, subsequent_indent=indent, break_long_words=False, break_on_hyphens=False)


def link(specs):
    return f"[`{specs.crate}/{specs.name}`](../../crates/{specs.crate}/specs/{specs.name}.antt)"


def anchor(key):
    """The name of a file's place on a page."""
    return key.replace(".", "-")


class Told:
    """What the pages so far tell: of each definition, each law and each type the page that has it."""

    def __init__(self):
        self.names, self.laws, self.types = {}, {}, {}

    def fresh(self, named, page):
        """What of these names, by where they stand, no page before has; from here on this page has it."""
        new = {place: sorted(name for name in names if (place, name) not in self.types) for place, names in named.items()}
        self.types.update({(place, name): page for place, names in new.items() for name in names})
        return {place: names for place, names in sorted(new.items()) if names}

    def links(self, keys, page):
        """For each page before, an item that links the files of which it tells definitions that are needed here, with the names of these
        where it tells others of the file too."""
        found = {}
        for key, name in keys:
            if self.names[key, name] != page:
                found.setdefault(self.names[key, name], {}).setdefault(key, []).append(name)
        for other in (path[0] for path in PATHS if path[0] in found):
            shown = []
            for key, names in found[other].items():
                is_whole = len(names) == sum(1 for place, of in self.names.items() if place[0] == key and of == other)
                part = "" if is_whole else f" ({', '.join(f'`{name}`' for name in names)})"
                shown.append(f"[`{key.replace('.', '/')}`]({other}.md#{anchor(key)}){part}")
            yield from wrapped(f"- From [{other}]({other}.md): {', '.join(shown)}.", "  ")


def laws_of(files, needed, told, page):
    """The part of a page on laws and worked facts: those that are new, and the pages that have the others."""
    laws = about(files, needed)
    new = [key for key in laws if key not in told.laws]
    others = dict.fromkeys(told.laws[key] for key in laws if key in told.laws)
    told.laws.update(dict.fromkeys(new, page))
    if not laws:
        return []
    out = ["## Laws", "", "Nobody has to trust these, since they are proved.", ""]
    if new:
        out += ["| File | Lines | What it says |", "|---|---|---|"]
        out += [f"| {link(files[key])} | {len(files[key].lines)} | {files[key].says} |" for key in new] + [""]
    if others:
        named = ", ".join(f"[{other}]({other}.md#laws)" for other in others)
        out += [*wrapped(f"Others that speak of the definitions here stand on {named}."), ""]
    return out


def listed(named):
    """Names with where they stand, in a sentence."""
    return "; ".join(f"{', '.join(f'`{name}`' for name in names)} {place}" for place, names in named.items())


def outside_of(types, others, stopped, told, page):
    """The part of a page on what its definitions name besides definitions of this project, where no page before has it."""
    out = []
    named = told.fresh({f"in `{file}`": names for file, names in types.items()}, page)
    if named:
        out += [*wrapped(f"Types of the code that no page before names: {listed(named)}."), ""]
    named = told.fresh({f"of `{crate}`": names for crate, names in others.items() if crate != "std"}, page)
    if named:
        out += [*wrapped("Definitions of the toolchain's crates that no page before names, beside those of its standard library: "
                         f"{listed(named)}."), ""]
    if stopped:
        left = ", ".join(f"`{key}`" for key in sorted(stopped))
        out += [*wrapped(f"Left out, since other commands or formats alone lead there: {left}."), ""]
    return out


def page_of(files, told, page, title, promise, left_out, stops, whole, part=None):
    """The page on one promise, with its numbers of files and of lines, in all and new. What is told on the pages before is linked. A page on
    a part begins at the definitions of one file, and else at what the promises of a run name."""
    roots = [(part, name) for name in files[part].blocks] if part else cited(files, left_out)
    needed, types, others, stopped = closure(files, roots, stops)
    for record in whole:
        needed[f"amf_cli.{record}"] = set(files[f"amf_cli.{record}"].blocks)
    keys = [(key, name) for key in in_order(files, needed) for name in files[key].blocks if name in needed[key]]
    new = {}
    for key, name in keys:
        if (key, name) not in told.names:
            new.setdefault(key, []).append(name)
            told.names[key, name] = page
    count = lambda pairs: sum(len(files[key].blocks[name]) for key, name in pairs)
    total, fresh = count(keys), count((key, name) for key, names in new.items() for name in names)
    out = [f"# {title}", "", *wrapped(promise), ""]
    before = list(told.links(keys, page))
    out += ["## Known from pages before", "", *before, ""] if before else []
    out += [f"## {'New definitions' if before else 'Definitions'}", ""] if new else []
    for place, (key, names) in enumerate(new.items(), 1):
        out.append(f'{place}. <a id="{anchor(key)}"></a>{link(files[key])}, {count((key, name) for name in names)} lines. {files[key].says}')
        out += [f"    - `{name}`: {files[key].sentence(name)}" for name in names]
    out += [""] if new else []
    out += outside_of(types, others, stopped, told, page)
    out += laws_of(files, needed, told, page)
    return "\n".join(out).rstrip("\n") + "\n", (len(needed), total, fresh)


def old_anchor(title):
    """The anchor that a heading of these words has; links to TRUST.md name it."""
    return re.sub(r"[^a-z -]", "", title.lower()).replace(" ", "-")


def pages():
    """The text of each page by its file."""
    files, told, made = load(), Told(), {}
    rows = ["| Page | Files | Lines | New |", "|---|---|---|---|"]
    for name, title, *rest in PATHS:
        made[PAGES / f"{name}.md"], numbers = page_of(files, told, name, title, *rest)
        cells = " | ".join(f"{number:,}" for number in numbers)
        rows.append(f'| <a id="{old_anchor(title)}"></a>[{title}](trust/{name}.md) | {cells} |')
    lines = {is_device: sum(len(specs.lines) for specs in files.values() if specs.is_device == is_device) for is_device in (False, True)}
    front = FRONT.replace("PAGES", "\n".join(rows)).replace("DEFINITIONS", f"{lines[False]:,}").replace("DEVICES", f"{lines[True]:,}")
    return {PAGE: front.rstrip("\n") + "\n", **made}


def main():
    made, there = pages(), [PAGE, *PAGES.glob("*.md")]
    if "--check" in sys.argv[1:]:
        sys.exit(any(not path.exists() or path.read_text() != text for path, text in made.items()) or not set(there) <= set(made))
    PAGES.mkdir(exist_ok=True)
    for path in set(there) - set(made):
        path.unlink()
    for path, text in made.items():
        path.write_text(text)


if __name__ == "__main__":
    main()
