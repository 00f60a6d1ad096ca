"""What hc's answers mean to who acts on them, in sentences: each stands here once.

docs/RULES.md, docs/DIFFERENCES.md and docs/INVARIANTS.md of hc say the same at length. In a sentence, what stands
between backticks is code.
"""

# ---- grades

GRAVE, BROKEN, OPEN, UNKNOWN, NOTE, IN_ORDER = range(6)

GRADE_NAMES = {
    GRAVE: "grave",
    BROKEN: "broken",
    OPEN: "open",
    UNKNOWN: "unknown",
    NOTE: "note",
    IN_ORDER: "good",
}

# The kinds of entries, those that weigh most first: the grade, the label, the kind as it is counted, and what it says.
KINDS = {
    "refuted": (GRAVE, "Refuted", "refuted", "a request breaks the claim"),
    "served": (GRAVE, "Served", "served", "a name that begins with .ht is served"),
    "refused": (GRAVE, "Refused", "refused", "not answered, for a reason that is named"),
    "chain": (BROKEN, "Broken chain", "with redirects that don't end", "a chain of redirects that ends nowhere"),
    "limit": (BROKEN, "Limit", "at a limit", "the server gives up with 500"),
    "ht_refused": (BROKEN, "Broken .htaccess", "at a broken .htaccess", "a file on the way isn't read"),
    "undecided": (OPEN, "Undecided", "undecided", "it isn't known whether the claim holds"),
    "too_many": (OPEN, "Too many branches", "with too many branches", "the claim wasn't decided"),
    "rejected": (OPEN, "Rejected", "rejected", "the invariant doesn't show the claim"),
    "late": (OPEN, "Not in time", "not in time", "the question was given up"),
    "left_out": (OPEN, "Left out", "left out", "questions that weren't asked for their number"),
    "outside": (UNKNOWN, "Outside", "outside", "nothing is said of the request"),
    "no_memory": (UNKNOWN, "No memory", "without memory", "not answered, and may be asked again"),
    "mismatch": (UNKNOWN, "Mismatch", "with a reply that doesn't fit", "a reply to something else than the script has"),
    "unanswered": (UNKNOWN, "No reply", "without a reply", "lines of the script that nothing came of"),
    "unknown": (UNKNOWN, "Unknown", "with an unknown reply", "shown as it came"),
    "dead": (NOTE, "Dead rule", "dead", "a rule that never matches"),
    "unread": (NOTE, "Never read", "never read", "a .htaccess that isn't read"),
    "taken": (IN_ORDER, "", "taken", "the servers that were asked"),
    "proved": (IN_ORDER, "Proved", "proved", "the claim holds of each request of its scope"),
    "accepted": (IN_ORDER, "Accepted", "accepted", "the invariant shows that the claim holds"),
    "unasked": (IN_ORDER, "Not asked", "not asked", "what no question was asked of, and why"),
    "answered": (IN_ORDER, "", "answered", "what a request receives, or what there is"),
    "done": (IN_ORDER, "", "done", "edits of the files"),
    "ended": (IN_ORDER, "", "ended", "the end of the session"),
}

# The kinds that answer no question.
EDITS = ("done", "ended")

# ---- chains of redirects

# Why a chain stops: the kind of its entry where that isn't its outcome's, and what it means.
STOPS = {
    "ended": ("", ""),
    "away": ("", "The location is of no server that is named, so it wasn't followed."),
    "bad target": ("chain", "The location is of a named server, but no request can have the target that it gives."),
    "too many": ("chain", "The redirects go on behind the 20th; browsers give up after about as many."),
}

# ---- outcomes

STATUSES = {
    400: "The target, or a text that a rule leaves, can't be served as it is; or a rule or a redirect says so.",
    403: "It is kept out: by `Require` lines, by a rule or a redirect, or for want of `FollowSymLinks`.",
    404: "The path of the target has an escaped slash; or a rule or a redirect says so.",
    410: "A rule or a redirect says that it is gone.",
}

MEANING = {
    "file": "The client gets this file, or what its handler makes of it: handlers aren't looked at.",
    "directory": "What is sent for a directory isn't looked at: an index, a listing or an error.",
    "not_found": "Nothing that was handed in is there; what wasn't handed in counts as absent.",
    "redirect": "The client is told to ask there next.",
    "status": "A rule or a redirect of the configuration says this status.",
    "ht_refused": "httpd answers 500 where it can't read a line of a `.htaccess` on the way; it may read this one.",
    "outside": "hc says nothing of this request, neither that it is served nor that it is refused.",
}

LIMITS = {
    "rounds": (
        "goes round in its rules more often than the configuration allows, and is answered 500",
        "Look for the rule with `N` that keeps matching what it leaves.",
    ),
    "redirects": (
        "is restarted more often than the configuration allows, and is answered 500",
        "Look for the rule of a directory that rewrites its own result; `LimitInternalRecursion` says how often it"
        " may.",
    ),
}

OUTSIDE = {
    "path byte": "The path has a byte that no path here may have: a blank, a control byte, or an escaped `%`, `?` or"
    " `#`.",
    "long text": "A text, a query or a variable that a rule makes has more than 8,190 bytes.",
    "dot segment": "A file name or a path that the configuration makes has a segment `.` or `..`.",
    "relative redirect": "A rule with `R` leaves a relative text where there is no `RewriteBase`: begin the text with"
    " a slash, or set `RewriteBase`.",
    "relative under alias": "A rule of a directory leaves a relative text where the file name isn't below the document"
    " root: set `RewriteBase`.",
    "scheme": "A rule leads to a scheme other than `http` and `https`, or redirects and lets rules go on.",
    "no root": "The server that answers has no document root.",
}

# ---- steps of a trail

WALKED = {"dir": "is a directory", "file": "is a file", "absent": "isn't there"}

AUTHORIZED = {
    "granted": "the `Require` lines let the request in",
    "denied": "the `Require` lines keep the request out",
    "neutral": "the `Require` lines in force say nothing, which keeps the request out",
    "none": "no `Require` is in force, so everyone may pass",
}

# ---- claims

UNDECIDED_MEANING = "hc doesn't know whether the claim holds: requests that decide as follows may break it."
UNDECIDED_ADVICE = (
    "Narrow the scope to the paths that matter, split it (one path or one method each), or state an invariant with"
    " `verify`: docs/RULES.md (Claims) and docs/INVARIANTS.md say how."
)
MANY_ENDS_ADVICE = "Narrow the scope, split it, or allow more with `--cells`."
ENDS_ADVICE = "Narrow the scope to the paths that matter, or split it (one path or one method each)."
TOO_MANY_ADVICE = (
    "Narrow the scope, split it, allow more with `--cells`, or state an invariant with `verify` (docs/INVARIANTS.md)."
)
BREAKS = {
    "stops": "So a request of the scope runs into a limit.",
    "shadowed": "The rule matches on its way.",
    "guarded": "That `Require` wasn't asked for it.",
    "ends": "The redirects go on behind the 20th, or lead to what is no request.",
}
OUTSIDE_BREAKS = "A request that ends outside breaks each claim, since nothing is known of it."
REJECTED_MEANING = "A rejected invariant says nothing of the claim itself."

# The conditions of an invariant: what each asks, and what to change where it is false.
CONDITIONS = {
    "K1": (
        "each request of the scope begins within a cell at `pass`",
        "Give a cell at `pass` this text, or narrow the scope.",
    ),
    "K2": (
        "each branch that leads on comes into a cell",
        "Add a cell at the place to which the branch leads, or make the one there wide enough for the text.",
    ),
    "K3": (
        "no branch breaks the claim",
        "Narrow the cell from which the branch comes; or the claim doesn't hold: ask for a request that decides so.",
    ),
    "K4": (
        "ranks and rounds grow",
        "Give ranks that grow at each restart, and rounds that grow below the bound of `N=`; or let the rules shorten"
        " the text.",
    ),
    "K5": (
        "there are at most 64 cells, with at most 20,000 branches from each",
        "Take fewer cells, or narrower ones.",
    ),
}

# ---- refusals: the name, what is refused (a sentence without its end), and what to do

REFUSALS = {
    1: (
        "UnsupportedDirective",
        "This is a directive, a section or a kind of `Require` that hc doesn't know",
        "docs/RULES.md (Directives, flags and variables) has those that it knows; leave this line out of what you hand"
        " in only where it changes no answer that you ask for.",
    ),
    2: (
        "WrongContext",
        "A directive may not stand here",
        "Move it to a place that docs/RULES.md (Directives, flags and variables) has for it.",
    ),
    3: (
        "WrongArguments",
        "The words of the directive are wrong in their number or form",
        "Write its words in the form that docs/RULES.md (The configuration) has for it.",
    ),
    4: (
        "UnclosedSection",
        "The section isn't closed, or its opening has no `>`",
        "Close the section, and end its opening with `>`.",
    ),
    5: (
        "UnmatchedClose",
        "The close isn't that of the innermost opening",
        "Close sections from the inside out, and none that isn't open.",
    ),
    6: (
        "UnclosedQuote",
        "A quoted word has no end",
        "End the word with the quote that it begins with.",
    ),
    7: (
        "LineTooLong",
        "The line is too long",
        "Shorten it: with the lines that it joins it may have 1,048,576 bytes, and 8,190 in a `.htaccess` file.",
    ),
    8: (
        "IncludeMissing",
        "An included file, or the main file, isn't there",
        "Hand the file in with `put`; `IncludeOptional`, or a wildcard, may name none; `main` names another main file.",
    ),
    9: (
        "IncludeCycle",
        "A file includes itself",
        "Take the `Include` away that leads back to its own file.",
    ),
    10: (
        "IncludeTooDeep",
        "Includes are nested too deep",
        "Include files at most 32 deep below the main file.",
    ),
    11: (
        "NoServerRoot",
        "A relative path is included before any `ServerRoot`",
        "Set `ServerRoot` before it, or write a path that begins with a slash.",
    ),
    12: (
        "BadDefineName",
        "No `Define` may give this name",
        "Write a name that isn't empty and has neither a colon nor a `}`.",
    ),
    13: (
        "PatternUnsupported",
        "The pattern has a construct that isn't supported",
        "Write the pattern without lookaround, backreferences, atomic and possessive forms, inline flags and named"
        " groups.",
    ),
    14: (
        "PatternSyntax",
        "This is no pattern",
        "Mend the group, class, range, count or backslash at this byte.",
    ),
    15: (
        "PatternTooLarge",
        "The pattern is too large",
        "Write it with at most 32 groups that keep what they span and 4,096 nodes, where a count in braces multiplies.",
    ),
    16: (
        "EmptyLoop",
        "The pattern repeats what can match the empty text",
        "Write what is repeated so that it takes at least one byte each time.",
    ),
    17: (
        "BadFlag",
        "This is no flag of a rule or a condition",
        "Write flags between `[` and `]`, with commas and without blanks, as docs/RULES.md (Flags of a RewriteRule) has"
        " them.",
    ),
    18: (
        "UnsupportedFlag",
        "The flag isn't supported",
        "hc knows this flag and doesn't follow it, as `P`, `B` and their kin; leave the rule out of what you hand in"
        " only where it changes no answer that you ask for.",
    ),
    19: (
        "UnsupportedVariable",
        "The variable isn't known",
        "docs/RULES.md (Variables) has those that are known.",
    ),
    20: (
        "UnsupportedCondition",
        "This form of condition isn't supported",
        "Write the condition with a pattern, `=text`, `-f` or `-d`.",
    ),
    21: (
        "NegatedInAny",
        "A negated member stands where one member suffices",
        "Put the negated line into a `RequireAll`, beside one that isn't negated.",
    ),
    22: (
        "NegatedInNone",
        "A negated member stands where no member may be met",
        "Put the negated line into a `RequireAll`, beside one that isn't negated.",
    ),
    23: (
        "OnlyNegative",
        "All members of a `RequireAll` are negated",
        "Add a member that isn't negated, as `Require all granted`.",
    ),
    24: (
        "EmptyContainer",
        "An authorization container has no members",
        "Put a `Require` line into it, or take it away.",
    ),
    25: (
        "MixedOptions",
        "An `Options` line has words with a sign and words without",
        "Write a sign before each word, or before none.",
    ),
    26: (
        "BadAddress",
        "This is no address and no network",
        "Write an address, the first numbers of one, or a network and its mask, as docs/RULES.md (Addresses and"
        " networks) has them.",
    ),
    27: (
        "NoDocumentRoot",
        "A server has no `DocumentRoot`, neither its own nor that of the main server",
        "Set `DocumentRoot` in the main server, or in each virtual host.",
    ),
    28: (
        "VhostAddress",
        "This address of a virtual host isn't supported",
        "Write an IPv4 address, `*` or `_default_`, and behind a colon a port.",
    ),
    29: (
        "OverrideNotAllowed",
        "`AllowOverride` doesn't allow this line of a `.htaccess` file",
        "Allow its class with `AllowOverride`, or take the line away.",
    ),
    30: (
        "NestedTooDeep",
        "Sections are nested too deep",
        "Open at most 64 sections within each other.",
    ),
    31: (
        "ControlByte",
        "The configuration has a control byte",
        "Take it away: of these, only tabs and line ends may stand there.",
    ),
    32: (
        "BadExpression",
        "This is no expression",
        "docs/RULES.md (Expressions) has the forms that are read; one with blanks stands between quotes.",
    ),
    33: (
        "RedirectWithoutLast",
        "A rule redirects and lets the next one go on",
        "Add the flag `L` or `END`.",
    ),
    34: (
        "RewriteContext",
        "A rewriting directive may not stand here",
        "Move it to a server, to a `<Directory>` without wildcards, or to a `.htaccess` file.",
    ),
    35: (
        "ContentMissing",
        "The text of a file isn't known",
        "Hand its text in with `put`: one that is only listed is never taken as empty, and a directory has none.",
    ),
    36: (
        "MapForm",
        "This is no rewrite map",
        "Write `txt:` and a path, `int:toupper` or `int:tolower`, and a name of 1 to 64 letters, digits, `_` and `-`.",
    ),
    40: (
        "NoSuchPath",
        "The path isn't there, or has no text whose lines could be edited",
        "Hand it in first: with `put` where its lines are to be edited.",
    ),
    41: (
        "PathForm",
        "This is no path of a file, or it is the root, which can't be dropped",
        "Write a slash before each component, without `.`, `..`, control bytes and a slash at the end.",
    ),
    42: (
        "UnderFile",
        "The path lies below a file, or is that of one",
        "`drop` the file first, or write another path.",
    ),
    43: (
        "BadRange",
        "There are no such lines",
        "Lines count from 1; `to` is at least one less than `from`, and at most the number of lines.",
    ),
    44: (
        "SetSyntax",
        "This is no set of texts",
        "docs/RULES.md (Claims) has the forms of a SET.",
    ),
    45: (
        "BadJson",
        "The line is no JSON",
        "Write one JSON object in UTF-8 on each line.",
    ),
    46: (
        "BadCommand",
        "The line is no command",
        "docs/RULES.md (Commands and replies) has the fields of each command, and their forms.",
    ),
    47: (
        "IsDirectory",
        "A directory stands where the file would",
        "`drop` the directory first, or write another path.",
    ),
    48: (
        "NoSuchPlace",
        "The line that the claim speaks of doesn't stand at its place",
        "Name the file and the line at which the RewriteRule, or the Require, stands now: edits move lines.",
    ),
}

# Those of a directive that hc doesn't know or doesn't follow, without which a configuration may be read.
LEFT_OUT = (1, 13, 18, 19)
LEAVE_OUT = "To go on without it, where it changes no answer that you ask for, put this line before the question:"

# ---- audits

SERVED_MEANING = "Files whose names begin with `.ht` hold passwords and rules; the client gets this one as it is."
SERVED_ADVICE = 'Keep them out: `<Files ".ht*">` with `Require all denied`, behind which no section opens them again.'
GUARD_ADVICE = (
    "Look in the steps for the section that applies last, or the rule that leads around the guard. Set the guard in a"
    " `<Directory>` of the folder that the file is served from, where it counts whatever the URL is."
)
DEAD_ADVICE = (
    "Take the line away, or look what keeps requests from it: an earlier rule that ends the run, a condition, or"
    " `RewriteEngine`."
)
UNREAD_MEANING = "`AllowOverride` allows nothing there, so its `Require` lines and rules aren't in force."
UNREAD_ADVICE = "Allow what it holds with `AllowOverride`, move its lines into a `<Directory>`, or take it away."
LATE_ADVICE = (
    "Give it longer with `--seconds`; or state it by hand with `decide` for the paths that matter, or with `verify`"
    " (docs/INVARIANTS.md)."
)
ENDED_ADVICE = "Ask it alone, to see whether the program ends again."
MOST_ADVICE = "Ask more with `--most`, or for fewer names with `--host`."
FAULTS_ADVICE = "Look why the program ends; each of these questions may be asked by hand."
