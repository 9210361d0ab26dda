"""The phrases that the repository's prose avoids, for .ci/english.py.

An entry of `PHRASES` has a regular expression, the words to write instead, and a sentence that the
expression finds. The expressions run over lower-case prose with one passage a line, in which each
character of code is replaced by a backtick. The self-test runs each expression over its sentence,
and every expression over the sentences of `OLD` and `PLAIN`.
"""

CODE = r"`+"
# The start of a clause that gives a condition, such as "where it is full".
SUBJECT = (
    r"(?:it|they|there|its|their|memory|room|nothing|none|nobody|neither|both|no|one|these|those|"
    r"that|as many|all)"
)
# Words after which "where" names a place.
PLACE = "".join(
    rf"(?<!\b{word} )"
    for word in (
        "about and area block case cases code context contexts example examples exactly file find"
        " from index know knows line location module of offset on one place places point points"
        " position program programs scenario scope see show shown shows situation situations"
        " somewhere spot state step to version world"
    ).split()
)

PHRASES = [
    # Conditions written as places.
    (
        r"\bwhere memory\b",
        "if an allocation fails",
        "Where memory runs out, the list stays as it was.",
    ),
    (
        r"(?:^ *|[.;:!?] +)where (?!possible|appropriate|applicable|necessary|needed|to\b|do\b|"
        r"does\b|did\b|is\b|are\b|can\b)",
        "if, when",
        "It sends nothing. Where the session is new, it stores a row.",
    ),
    (
        rf"\b(?=where ){PLACE}where {SUBJECT}\b",
        "if, when",
        "The list is sorted where it has two rows.",
    ),
    (rf"{CODE} where (?:the|a|an)\b", "if, when", "Prints `none` where the file is empty."),
    (
        r"\b(?:only|also|but|even|except|save|just|or|nor|not|exactly) where (?:the|a|an|this|as|"
        r"it|there|no|nothing|one|they)\b",
        "only if, except when",
        "It fails only where the table is full.",
    ),
    (
        r"\bhowever it (?:is|was)\b|\bhowever (?:many|much|long) (?:it|they|there)\b",
        "regardless of, for every",
        "It works however many there are.",
    ),
    # Things written as clauses.
    (
        r"\bwhat (?:comes|came|come) (?:of|from|out|in)\b",
        "the result of",
        "Prints what came of the last event.",
    ),
    (r"\bwhat (?:waits|waited|is waiting)\b", "pending ..", "Collects what waits in the buffer."),
    (
        r"\bwhat (?:is|was|are|were) (?:put|owed|held|due|kept|sent|read|asked|said|stored|taken|"
        r"to be|free|found)\b",
        "pending output, the stored ..",
        "It keeps what is owed to the client.",
    ),
    (
        r"\bwhat (?:stands|stood|goes|went|an? \w+ (?:says|said|asks|tells|takes))\b",
        "a noun for it",
        "What a packet says of its length is checked.",
    ),
    (
        rf"\bwhat (?:makes an? [\w ]+ is|[^.,;\n]{{1,40}}? does is|[^.,;\n]{{1,30}}? is for is)\b",
        "make the thing the subject",
        "What the buffer does is decided later.",
    ),
    (
        rf"\b(?:of|for|by|with|from|than|but|and) what (?:it|they|its|this|that|the|an?|"
        rf"{CODE}) ?\w+ (?:says?|said|has|had|takes?|holds?|held|did|does)\b",
        "a noun for it",
        "It depends on the order of what the buffer holds.",
    ),
    (
        rf"\basked (?:what|for what|as|how|whether)\b|\b(?:what|as) its {CODE} (?:says?|asks?)\b",
        "whenever its preconditions hold",
        "Each call returns, asked as its contract demands.",
    ),
    (
        r"(?:^ *|\. +)what \w+(?=(?:[^?.\n]|\.\w)*\.(?:\s|$))",
        "a noun for it",
        "What changes of a list leave is its order.",
    ),
    (
        r"\bwhat (?:came|comes|was|(?:it|they|is)(?! (?:looks?|means?|now)\b))\b",
        "a noun for it",
        "The table keeps what it has.",
    ),
    # Reports.
    (
        r"\b(?:is|are|was|were|be|been|being) told(?! to\b)",
        "is passed, is reported, is stored",
        "The current time is told once.",
    ),
    (
        r"\btells (?:of|how|that|whether|what|which|nothing|so|by|apart)\b",
        "returns, reports",
        "The status tells how the run ended.",
    ),
    (
        r"\bsays? of\b|\bsaid of\b|\bsays? nothing of\b",
        "specifies, defines",
        "The contract says nothing of the order.",
    ),
    (
        rf"\bgives? the answer\b|\bso that the answer\b|\bthe answer (?:is|was|for) (?:{CODE}|"
        rf"no\b|yes\b|whether|that)|\bthe answer for\b",
        "returns ..",
        "The list is full, so that the answer is `Err`.",
    ),
    (
        rf"\banswers (?:{CODE}(?! to| with)|true|false|whether|what|nothing|none|no\b|yes\b)",
        "returns ..",
        "It answers whether the filter matches.",
    ),
    # Posture.
    (
        r"(?<!-)\b(?:stands?|stood)\b(?!-| in for\b| alone\b)",
        "exists, is stored, applies, is true; for: represents; by: follows",
        "The row stands in the table.",
    ),
    (r"(?<!-)\bstanding\b(?!-)", "stored, current", "A standing session keeps its rows."),
    (
        r"\b(?:is|are|was|were|be|been|being|stays?) up(?! to| in|-)\b",
        "is connected",
        "The client is up.",
    ),
    (
        r"\b(?:comes?|came|coming) up(?! with| again| in| as| when you)\b",
        "connects",
        "The end comes up after CONNECT.",
    ),
    (
        r"\b(?=r[io]s)(?<!give )(?<!gives )(?<!giving )(?:rises?|rose|risen)\b(?! by)",
        "connects; grows",
        "The session rises again.",
    ),
    (
        r"\b(?:goes|went|go|gone|going) by\b(?! name\b)",
        "follows, depends on; (of time) elapses",
        "The order goes by the key.",
    ),
    (
        r"\b(?:lies|lay|lie) (?:at|there|before|behind|open)\b",
        "is at, is in",
        "The program lies at the root.",
    ),
    # Sending and passing on.
    (
        r"\b(?:is|are|was|were|be|been|being) put out\b|\bputs? (?:nothing |it |them |"
        r"that )?out\b|\bputting out\b",
        "is sent, is queued",
        "A packet is put out first.",
    ),
    (r"\b(?:goes|go|went|gone|going) out(?! of)\b", "is sent", "The packet goes out at once."),
    (r"\blet(?:s|ting)? go\b|\blet go\b", "drops, frees", "It lets go of the buffer."),
    (
        r"\bhand(?:s|ed|ing)? (?:it |them |that |this |those )?on\b",
        "delivers (to the application)",
        "Messages are handed on in order.",
    ),
    (
        r"\b(?:takes|taken|take|taking) in\b(?! an?\b)|\btook (?:(?:its|the|an?|no|"
        r"their) )?(?:\w+ )?in\b(?=[,.;]| while| and| as| before| after| at| of)",
        "processes, accepts, reads",
        "A server that took its packet in while it waits.",
    ),
    (
        r"\bturn(?:s|ed|ing)? (?:it |them )?round\b|\bother way round\b",
        "reverses; the other way around",
        "The list is turned round.",
    ),
    (r"\b(?:drawn|draws?|drew) up\b", "computes, plans", "A list is drawn up."),
    (
        rf"\b(?:packets?|pieces?|connections?|clients?|messages?|bytes|connect|publish|connack|"
        rf"subscribe|{CODE}) (?:came|comes|come)\b(?! from| with| before| after| out)|"
        rf"\bit came\b(?! from| with| to\b)",
        "arrives, is received",
        "When a packet comes, it is decoded.",
    ),
    (
        r"\b(?:may|can|must) not (?:come|go|stand)\b|\b(?:comes|came|come) that\b",
        "unexpected, not allowed",
        "Some packets may not come then.",
    ),
    (
        r"\blook(?:s|ed|ing)? for (?:where|at a|in a|by)\b|\b(?:is|are|was|were) looked for\b",
        "is searched, is tried first",
        "A key is looked for in the table.",
    ),
    # Encoding, arguments, duplicates.
    (
        r"\bspell(?:s|ed|ing|ings|t)?\b",
        "encoding, encodes",
        "The spelling of a length has four bytes.",
    ),
    (
        r"\b(?:command|program|command line|option)s?(?:'s)? (?:with |and |has |takes |takes no |"
        r"with its |with no |with one |with two |without )?(?:its )?words?\b|\bwords of (?:the|a|"
        r"its) (?:command|program)|\bwords? of the command line\b|\b(?:its|the) words, digits\b|"
        r"\bwords, (?:digits|files)\b",
        "arguments",
        "The words of the command line are checked.",
    ),
    (r"\btwins?\b|\bsisters?\b", "counterpart, duplicate", "The function has a twin for servers."),
    (r"\bbeside\b", "next to, compared with, concurrently with", "A number is beside each row."),
    (r"\bby hal(?:f|ves|ving)\b", "by binary search", "The row is found by halves."),
    (r"\bmiddle one\b", "the median of", "The middle one of five runs counts."),
    (r"\bwrong bod(?:y|ies)\b|\bplanted bod(?:y|ies)\b", "mutants", "A tool plants wrong bodies."),
    (r"\bthe (?:merge )?gate(?:'s)?\b(?! in\b| of\b)", "CI", "The gate runs each proof."),
    (
        r"\bthrough which (?:nobody|no one|none)\b",
        "that no .. passes",
        "It is a door through which no one goes.",
    ),
    (
        r"\b(?:are|is|as|so|less|more|too|very) dear\b|\bdear (?:is|are|to)\b|\bdear(?:er|est)\b",
        "expensive, costs",
        "A copy is dearer than a lookup.",
    ),
    (r"\b\w+ dear (?:is|are)\b", "expensive, costs", "What makes a step dear is its copies."),
    (
        r"(?<!as )\bof (?:before|then|now|today)\b",
        "previous, current",
        "The rows of before are kept.",
    ),
    (
        r"\bfigures? (?:are|is|were|was)? ?of one\b|\bof one (?:day|moment|run)\b",
        "measured on (date, machine)",
        "All figures are of one day.",
    ),
    (r"\bthe same of\b", "the same for ..", "The same of a list."),
    (r"\bon (?:its|their) way\b", "in flight", "The bytes on their way are lost."),
    (
        r"(?<!there )\b(?:is|are|was|were) none\b(?! of)",
        "is not a .., does not exist, is empty",
        "A filter that is none is refused.",
    ),
    (
        r"\b(?:goes|go|went|going) on\b(?! to\b)",
        "continues, happens",
        "The step goes on with the next row.",
    ),
    (
        r"\b(?:in|of|to|on|for|after|behind|by|from) which nothing\b",
        "a .. without, an empty ..",
        "It is a session in which nothing is stored.",
    ),
    (
        r"\b(?:that|which) waits?\b(?! for| on| until)",
        "pending",
        "It takes the bytes that wait.",
    ),
    (
        r"\bless than (?:an?|one) (?:whole )?(?:packet|one)\b",
        "an incomplete packet",
        "The rest is less than a packet.",
    ),
    (r"\bthat (?:is|are) left\b(?! out)", "remaining", "It reads the bytes that are left."),
    # Amounts.
    (
        r"\bso many\b(?! \w+ that\b)|\bso much\b(?! that\b)",
        "the count, that many",
        "It reads so many bytes.",
    ),
    (
        r"\bas many as (?!possible\b|necessary\b|needed\b|you\b|\d)|"
        r"\bas (?:many|much) (?:\w+ )?as (?:may|there|are)\b|"
        r"\bas there (?:may|can|were)\b|\bas many (?:are|is|were|stand)\b",
        "the maximum, the number of",
        "It takes as many as the table has.",
    ),
    (
        r"\bhow many there (?:are|is|were)\b|\bhow many (?:it|they) (?:is|are|has|have)\b",
        "the number of ..",
        "Prints how many there are.",
    ),
    (
        r"\bno (?:more|sooner|further|earlier|later) than\b",
        "at most, not before",
        "A row has no more than five cells.",
    ),
    (
        r"\bthe first that (?:holds|stands|is|fits|applies)\b",
        "the first failing check, the first ..",
        "It reports the first that holds.",
    ),
    # Time.
    (
        r"\b(?:a|an|this|that|its|one|each|same|every|which|next|last|first|any|no|whose|what|"
        r"two|by|of|with|for|until|before) moments?\b(?! (?:later|ago|to|of silence))|"
        r"^moments?\b|[,;:] moments?\b|\bthe moments? (?:of|from which|at which)\b|"
        r"\bmoments (?:are|is|of|that|and|do|go|come)\b",
        "a time in milliseconds, the current time",
        "A moment is passed with each call.",
    ),
    # Memory.
    (
        r"(?<!can fail for )\b(?:lack|want) of memory\b",
        "out of memory; say it once per crate",
        "It returns an error for want of memory.",
    ),
    (
        r"\bmemory aside\b|\btakes? no memory\b|\bneeds? no memory\b",
        "unless an allocation fails; say it once per crate",
        "It takes no memory.",
    ),
    (
        r"\bfails? if memory runs out\b|\bif memory runs out,? (?:and )?nothing\b",
        "an allocation fails; say it once per crate",
        "Fails if memory runs out.",
    ),
    (
        r"\bout of memory,? (?:and )?nothing changes\b",
        "say it once per crate",
        "When out of memory, nothing changes.",
    ),
    (
        r"\bnothing but an?\b|\bno \w+ but (?:the|an?|one|its|that|those)\b",
        "only",
        "There is nothing but a row in it.",
    ),
    (
        r"\bno memory (?:for|is|to)\b|\bthere (?:is|was) no memory\b(?! access)",
        "an allocation fails; say it once per crate",
        "It is dropped if there is no memory for it.",
    ),
    # People.
    (r"\bsomebody\b|\bnobody\b", "a client, a peer; no client", "Nobody reads it."),
    (
        r"\b(?:then|and|or|of|by|for|to|first|,) who(?:ever)? (?:collects?|publish(?:es)?|sends?|"
        r"reads?|writes?|asks?|calls?|uses?|subscribes?)\b",
        "the subscriber, the publisher",
        "Start the broker and then who sends.",
    ),
    # Other habits.
    (
        r"\bnothing (?:goes|went) on\b|\bwhat goes on\b",
        "deadlock; nothing happens",
        "If one waits, nothing goes on.",
    ),
    (r": else\b(?! if)", "otherwise", "It is sent if there is room: else it is dropped."),
    (
        r"\bno word of\b|\bnot a word of\b",
        "nothing about, without",
        "The page has no word of the cost.",
    ),
    (
        r"(?<!there )\b(?:is|are|was|were) no (?:longer )?(?:packet|name|text|part|utf|number|"
        r"file|client|topic|filter|key|promise|clause|proof|word|end|other|such)s?\b",
        "is not a ..",
        "It refuses texts that are no names.",
    ),
    (
        r"\bas (?:it|they) (?:was|were)\b(?! (?:\w+ed|sent|written|made|read)\b)",
        "unchanged",
        "On an error the list is as it was.",
    ),
    (
        r"\b(?:has|have|is|are) to be there\b|\bmay (?:not )?be there\b|\bis not there\b|"
        r"\b(?:are|is) to be there\b",
        "must exist, is required",
        "The file has to be there.",
    ),
    (
        r"\bsuch (?:that|as) (?:then|are|is|have|has|it|they)\b",
        "those that, a .. that",
        "It reads rows, and such as are empty.",
    ),
    (
        r"\bmad(?:e) up (?!of)|\bis made up\b(?! of)",
        "generated",
        "A schedule is made up from a seed.",
    ),
    (
        r"\bgiv(?:e|es|en|ing) (?:\w+ )?away\b|\bgave (?:\w+ )?away\b",
        "moves to the caller",
        "The buffer is given away.",
    ),
    (r"\bfor good\b", "permanently", "It closes for good."),
]

# Sentences in the old style, in each of which an expression must find something, however the lines
# of the comment are broken.
OLD = [
    "What it is for is messages that must arrive once although connections break",
    "In three terminals, the broker first, then who collects, then who publishes",
    "prints how many there are; then nothing, `cut` where the file ends inside a packet, or "
    "the fault",
    "Every function of every crate is proved to return, asked what its `requires` says",
    "A packet gets the first identifier that is free, and is refused as full exactly where "
    "as many are in use as there may be",
    "Only tested, everywhere: that nothing but a refused allocation gives the answer for "
    "lack of memory",
    "A connection is looked for where it stood when its piece came",
    "Some matches of `mq_decode` spell `?` out",
    "What a PUBLISH does is decided before anything changes: its message is handed on, it "
    "came before, or its identifier doesn't fit the receiving window",
    "A moment is told once: a worker whose next turn comes within the same millisecond makes "
    "no step for it",
    "What makes a function dear is what it lets go of",
    "It is this moment: where the end is up, and a keep-alive has gone by since its CONNECT "
    "or its last PINGREQ, it puts out PINGREQ. It never closes, so that the answer is "
    "`None`.",
    "Fails with the first refusal that stands, and then nothing changes.",
    "A session that took its CONNECT in while it stands apart",
    "Each part is done in a thread of its own, where one can be made: else parts are done "
    "one after another, and where one of them waits for another nothing goes on.",
    "a gate through which nobody comes",
    "What a user says of a broker.",
    "a packet came that may not come there",
    "Makes the events of a schedule between two ends, and prints what comes of each",
    "Documents: no word of a proof's length that was not measured",
]

# Plain sentences in which no expression may find anything.
PLAIN = [
    "Use it when a message must be delivered exactly once even though connections drop.",
    "Run these in three terminals: broker, subscriber, publisher.",
    "prints the number of packets, then `cut` if the file ends inside a packet, or the fault "
    "if a packet is malformed",
    "Every function is proved to terminate without overflow, out-of-bounds access or panic "
    "whenever its preconditions hold.",
    "A packet gets the first free identifier. Allocation fails only when the configured "
    "maximum is in use.",
    "Tested, not proved: an out-of-memory error is returned only after an allocation really "
    "failed.",
    "The index found for the first packet of a read is tried first for the packets after it.",
    "`mq_decode` writes some `match`es instead of `?`, because the kit's borrow checker "
    "rejects `?` there.",
    "A PUBLISH is first classified as new, duplicate or over the receive window. Nothing "
    "changes until then.",
    "A worker sends at most one tick per millisecond.",
    "The cost of a proof is dominated by the values that the function drops.",
    "Call this regularly with the current time. Queues a PINGREQ if the keep-alive interval "
    "has elapsed since CONNECT or the last PINGREQ.",
    "On error nothing changes, and the first failing check is reported.",
    "A session that has processed its CONNECT but is not in the table yet.",
    "Runs each part in its own thread. If threads can't be created, the parts run one after "
    "another, and parts that wait for each other deadlock.",
    "an acceptor that never accepts",
    "Broker configuration.",
    "unexpected packet",
    "Replays a schedule between a client and a server and prints the result of each event",
    "docs: drop unmeasured proof times",
    "Returns the number of stored sessions.",
    "The decoder keeps the offset where the packet starts.",
    "In the case where it is empty, the result is `None`.",
    "Each list is sorted, where possible, by its key.",
    "`Full` if the table has no free slot.",
    "The server answers PUBREL with PUBCOMP (4.3.3).",
    "An error tells the caller to close the connection.",
    "It reads as many bytes as possible in one call.",
    "At the moment only version 3.1.1 is supported.",
    "This gives rise to a second allocation.",
    "A call that can fail for lack of memory says so in its return type.",
    "The client must be connected before this call.",
    "A long-standing bug was fixed in a stand-alone tool.",
    "The first connection comes from the listener.",
    "Lines that are left out don't count.",
    "What this is not",
    "What can go wrong?",
]
