"""What a judge has found of a purchase, as values: its status and its findings."""
from dataclasses import dataclass, field

PASSED, FAILED, INCONCLUSIVE = "passed", "failed", "inconclusive"
# What a line of a verdict is about.
WRONG = "wrong"              # a difference that the Books don't permit
BEHIND = "behind"            # a difference behind one, which may follow from it
PERMITTED = "permitted"      # a difference that the Books permit; set aside
OWN = "own"                  # a difference by a rule of this project alone: inconclusive
OPEN = "open"                # what can't be judged: inconclusive
SUPPLIED = "supplied"        # a reply of the host that the log lacks, made from what follows
TAKEN = "taken"              # values that were taken from the log, so not judged
ASSUMED = "assumed"          # a fact that no byte tells, set as the verification results say
LACKING = "not known"        # keys of the lane that neither facts nor log give
NOTE = "note"                # anything else that one should know


@dataclass(frozen=True)
class Line:
    """One finding. `kind` is of those above, `text` what it is, in words. `exchange` counts from 1, `line` is the log's; both
    None where it is about the whole. `sent` and `wanted` are the bytes, or None; `details` lines about objects and bits;
    `because` the reference's reasons; `section` the Books' section, or names of rules (rules.py), or an empty text."""

    kind: str
    text: str
    exchange: int | None = None
    line: int | None = None
    sent: bytes | None = None
    wanted: bytes | None = None
    details: tuple = ()
    because: tuple = ()
    section: str = ""


@dataclass
class Verdict:
    """What a walk has found: `status` PASSED, FAILED or INCONCLUSIVE; `lines` in the order of the log; `end` the text of the
    reference's end line behind `end`, or None where it didn't come so far; `fed` the reference's dialogue as a trace's entries
    (`> H`, `< H`, `< gone`, `host > H`, ..), its `end` line last; `fitting` how many of the log's `exchanges` are as the
    reference's; `lane` the lane's table with the purchase, by which was judged; `lacking` the keys that no one gave, by their
    places (`kind`, `aid[0].floor`); `paid` the account number and the amount where the purchase was approved, else None."""

    status: str = PASSED
    lines: list = field(default_factory=list)
    end: str | None = None
    fed: list = field(default_factory=list)
    fitting: int = 0
    exchanges: int = 0
    lane: dict = field(default_factory=dict)
    lacking: list = field(default_factory=list)
    paid: tuple | None = None
