#!/usr/bin/env python3
"""Shows that a scanner and its model cannot be wrong together: the definitions alone say which tokens a text has.

usage: models.py [--only NAME]

The scanner's code is proved to do what the exact model says, so a wrong body that comes with its own wrong model would be proved
too. Each wrong model below gives some text a row of tokens that covers it as pieces and is not its row. The model is changed so in
a copy of the crates, and the contrary of the law `tokens_are_of_a_row` is proved there: with this model the law is false, whatever
lemmas come with it. The model's own lemmas are left out of the copy, since whoever changes the model would change them too. The
same proof must fail of the model as it is. It takes a minute for each.
"""
import argparse, os, re, shutil, subprocess, sys, tempfile

TOP = os.path.dirname(os.path.dirname(os.path.abspath(__file__)))
SPECS = "crates/model_scanner/specs/"
LINE = "refuted: defs_text defs_token yaml_chars yaml_tokens model_scanner proof_row\n"
# What stays of the model's proofs: the words with which it is computed, and those that it takes them from.
LEMMAS = ("Common", "OnLiterals")

PLAIN = "((refl, (refl, ((refl, refl, refl), refl)))"
MARK = "((refl, (refl, (refl, refl)))"
BRACKET = "((refl, (refl, ((refl, refl), refl)))"


class Row:
    """A text with its row of tokens, by the definition: steps, tokens with positions, and the proof of each step."""

    def __init__(self, text, steps, tokens, proofs):
        self.text, self.steps, self.tokens, self.proofs = text, steps, tokens, proofs

    def proof(self):
        term = "(refl, refl)"
        for part in reversed(self.proofs):
            term = "%s, %s)" % (part, term)
        return "(row, (refl, %s), refl)" % term


def scalar(text):
    return '(scalar plain (codes "%s"))' % text


def put(index, line, column, token):
    return "put (position %d %d %d) %s" % (index, line, column, token)


def step(before, piece, token, key="false"):
    spelled = 'codes "%s"' % before if before else "[]"
    return 'step (%s) (codes "%s") %s %s' % (spelled, piece, token, key)


PAIR = Row(
    "a: b",
    [step("", "a", scalar("a"), "true"), step("", ":", "value"), step(" ", "b", scalar("b"))],
    [put(0, 1, 0, "stream_start"), put(1, 1, 1, "block_mapping_start"), put(0, 1, 0, "key"), put(0, 1, 0, scalar("a")),
     put(1, 1, 1, "value"), put(3, 1, 3, scalar("b")), put(4, 2, 0, "block_end"), put(4, 2, 0, "stream_end")],
    [PLAIN, MARK, PLAIN],
)
SINGLE_PAIR = Row(
    "[a: b]",
    [step("", "[", "flow_sequence_start"), step("", "a", scalar("a"), "true"), step("", ":", "value"), step(" ", "b", scalar("b")),
     step("", "]", "flow_sequence_end")],
    [put(0, 1, 0, "stream_start"), put(0, 1, 0, "flow_sequence_start"), put(3, 1, 3, "flow_mapping_start"), put(1, 1, 1, "key"),
     put(1, 1, 1, scalar("a")), put(2, 1, 2, "value"), put(4, 1, 4, scalar("b")), put(5, 1, 5, "flow_mapping_end"),
     put(5, 1, 5, "flow_sequence_end"), put(6, 2, 0, "stream_end")],
    [BRACKET, PLAIN, MARK, PLAIN, BRACKET],
)
ENTRIES = Row(
    "[a, b]",
    [step("", "[", "flow_sequence_start"), step("", "a", scalar("a")), step("", ",", "flow_entry"), step(" ", "b", scalar("b")),
     step("", "]", "flow_sequence_end")],
    [put(0, 1, 0, "stream_start"), put(0, 1, 0, "flow_sequence_start"), put(1, 1, 1, scalar("a")), put(2, 1, 2, "flow_entry"),
     put(4, 1, 4, scalar("b")), put(5, 1, 5, "flow_sequence_end"), put(6, 2, 0, "stream_end")],
    [BRACKET, PLAIN, BRACKET, PLAIN, BRACKET],
)
SCALAR = Row("a", [step("", "a", scalar("a"))], [put(0, 1, 0, "stream_start"), put(0, 1, 0, scalar("a")), put(1, 2, 0, "stream_end")], [PLAIN])


class Wrong:
    """A wrong model: what it does, to which text, the tokens it gives it, and the change of a file as pairs of old and new text."""

    def __init__(self, deed, row, tokens, file, pairs):
        self.deed, self.row, self.tokens, self.file, self.pairs = deed, row, tokens, file, pairs


WRONG = {
    "key_left_out": Wrong(
        "`a: b` has no Key",
        PAIR,
        PAIR.tokens[:2] + PAIR.tokens[3:],
        "Block.antt",
        [("begin_pair k p pair (put k.number k.position Tok.key s)", "begin_pair k p pair s")],
    ),
    "pair_begins_after_its_key": Wrong(
        "in `[a: b]` the pair begins between the Key and the scalar",
        SINGLE_PAIR,
        SINGLE_PAIR.tokens[:2] + [SINGLE_PAIR.tokens[3], SINGLE_PAIR.tokens[2]] + SINGLE_PAIR.tokens[4:],
        "Block.antt",
        [
            ("Prelude.{List,", "Prelude.{◌+◌, List,"),
            ("Ok (put k.number s.position Tok.flow_mapping_start s)", "Ok (put (k.number + 1) s.position Tok.flow_mapping_start s)"),
        ],
    ),
    "pair_around_an_entry": Wrong(
        "`[a, b]` has a pair around `a`",
        ENTRIES,
        ENTRIES.tokens[:2] + [put(1, 1, 1, "flow_mapping_start"), ENTRIES.tokens[2], put(2, 1, 2, "flow_mapping_end")] + ENTRIES.tokens[3:],
        "Flow.antt",
        [
            ("State.{Held, ScannerState, ◌>>=◌, in_flow, push,", "State.{Held, ScannerState, Key, ◌>>=◌, in_flow, push, put,"),
            (
                "unfoldable pub end_entry : Held → Result Held Fault\nend_entry s = next_entry (remove_implicit_key s)",
                "abbrev pub paired_entry : List (Option Key) → List FlowLevel → Held → Held\n"
                "paired_entry (Some k ∷ ks) (Entry ∷ fs) s = push s.position Tok.flow_mapping_end (put k.number k.position Tok.flow_mapping_start s)\n"
                "paired_entry _ _ s = s\n\n"
                "unfoldable pub end_entry : Held → Result Held Fault\nend_entry s = next_entry (remove_implicit_key (paired_entry s.keys s.flow s))",
            ),
        ],
    ),
    "key_without_a_colon": Wrong(
        "`a` is a mapping with the key `a`",
        SCALAR,
        [SCALAR.tokens[0], put(0, 1, 0, "block_mapping_start"), put(0, 1, 0, "key"), SCALAR.tokens[1], put(1, 2, 0, "block_end"), SCALAR.tokens[2]],
        "Document.antt",
        [
            ("State.{Held, ScannerState, ◌>>=◌, peek, in_flow, push,", "State.{Held, ScannerState, Key, ◌>>=◌, peek, in_flow, push, put,"),
            ("Indents.{unroll_indent,", "Indents.{roll_indent, unroll_indent,"),
            (
                "abbrev pub end_stream : Held → Result Held Fault",
                "abbrev pub keyed_scalar : List (Option Key) → Held → Held\n"
                "keyed_scalar (Some k ∷ ks) s = roll_indent k.position.col (Some k.number) Tok.block_mapping_start k.position (put k.number k.position Tok.key s)\n"
                "keyed_scalar _ s = s\n\n"
                "abbrev pub end_stream : Held → Result Held Fault",
            ),
            ("unroll_indent 0 (record s { keys = cleared s.keys })", "unroll_indent 0 (record (keyed_scalar s.keys s) { keys = cleared s.keys })"),
        ],
    ),
}

# What computes the definition of a row on a text that is written out.
CLASSES = "is_blank, is_break, is_nul, is_blank_or_end, is_flow, is_decimal_digit, is_letter, is_alpha, is_uri, is_tag, is_anchor_name, are_marks"
SCALARS = "plain_element, single_quoted_element, double_quoted_element, is_character_code, numeric_escape, escape, begins_with_marker, plain_value, single_quoted_value, double_quoted_value"
BLOCKS = "sign_of, digit_of, is_empty_line, is_content_line, row_of"
TAGS = "octet_at, lead_of, is_trail, escaped_character, uri_character"

STATED = """-- The law `tokens_are_of_a_row`, and that it is false of this model.
use Rattle.std.specs.Prelude.{◌≡◌, ℕ, List, true}
use Rattle.defs_text.specs.Text.{has_no_nul}
use Rattle.defs_token.specs.Token.{Token}
use Rattle.defs_token.specs.Row.{IsRead}
use Rattle.model_scanner.specs.Run.{HasTokens}

abbrev pub TokensAreOfARow : Type 0
TokensAreOfARow = (text : List ℕ) (ts : List Token) → has_no_nul text ≡ true → HasTokens text ts → IsRead text ts

abbrev pub IsRefuted : Type 0
IsRefuted = TokensAreOfARow → ⊥
"""

CODE = """//! The law of this model is false.
#![tactic(auto)]

ghost use Rattle.refuted.specs.Refuted.{IsRefuted};

/// The model gives some text tokens that are not those of its row.
#[tactic(auto, using(crate::proofs::Differ::refuted))]
pub fn refuted()
    ensures { IsRefuted }
{}
"""

PROOF = """-- The tokens of a text by the definition of a row, those that the model gives it, and that these differ.
use Rattle.std.proofs.Common.{◌≡◌, ℕ, ◌==◌, List, [], ◌∷◌, Bool, true, false, ◌&&◌, refl, ap}
use Rattle.std.specs.Prelude.{codes}
use Rattle.defs_text.specs.Classes.{%(classes)s}
use Rattle.defs_text.specs.FlowScalar.{%(scalars)s}
use Rattle.defs_text.specs.BlockScalar.{%(blocks)s}
use Rattle.defs_text.specs.Tags.{%(tags)s}
use Rattle.defs_text.specs.Directives.{directive_of}
use Rattle.defs_token.specs.Token.{Token, stream_start, stream_end, block_mapping_start, block_end, flow_sequence_start, flow_sequence_end, flow_mapping_start, flow_mapping_end, flow_entry, key, value, scalar, plain}
use Rattle.defs_token.specs.Step.{Row}
use Rattle.defs_token.specs.Tokens.{put}
use Rattle.defs_token.specs.Row.{IsRead}
use Rattle.defs_token.proofs.RowShown.{position, step}
use Rattle.model_scanner.specs.Run.{HasTokens, here, there}
use Rattle.model_scanner.proofs.OnLiterals.{scan_on_literals}
use Rattle.proof_row.proofs.OneRow.{one_reading}
use Rattle.refuted.specs.Refuted.{IsRefuted}

abbrev text : List ℕ
text = codes "%(text)s"

abbrev row : Row
row = record { steps = %(steps)s ∷ []; last = [] }

abbrev of_row : List Token
of_row = %(of_row)s ∷ []

abbrev of_model : List Token
of_model = %(of_model)s ∷ []

is_read : IsRead text of_row
unfolding %(unfolded)s directive_of
is_read = %(proof)s

has_tokens : HasTokens text of_model
unfolding scan_on_literals
has_tokens = record { end = _; run = %(run)s; ended = refl; tokens = refl }

abbrev places : List Token → List ℕ
places [] = []
places (t ∷ ts) = t.position.index ∷ places ts

abbrev are_same : List ℕ → List ℕ → Bool
are_same [] [] = true
are_same (m ∷ ms) (n ∷ ns) = (m == n) && are_same ms ns
are_same _ _ = false

differ : of_row ≡ of_model → ⊥
differ e = let same : true ≡ false = ap (λ ts. are_same (places of_row) (places ts)) e in cc

pub refuted : IsRefuted
unfolding is_nul
refuted law = differ (one_reading text of_row of_model is_read (law text of_model refl has_tokens))
"""


def needed():
    """The crates that the refutation stands on, with all below them, in the order of crates.txt: their lines."""
    imports = {}
    with open(os.path.join(TOP, "crates.txt"), encoding="utf-8") as f:
        for line in f:
            name, colon, below = line.partition(":")
            if colon and not line.startswith("#"):
                imports[name.split()[0]] = (line, below.split())
    found, left = set(), LINE.partition(":")[2].split()
    while left:
        name = left.pop()
        if name in imports and name not in found:
            found.add(name)
            left += imports[name][1]
    return {name: line for name, (line, below) in imports.items() if name in found}


def write(path, text):
    os.makedirs(os.path.dirname(path), exist_ok=True)
    with open(path, "w", encoding="utf-8") as f:
        f.write(text)


def leave_lemmas_out(proofs):
    kept = {}
    for name in LEMMAS:
        with open(os.path.join(proofs, name + ".antt"), encoding="utf-8") as f:
            kept[name] = f.read()
    shutil.rmtree(proofs)
    for name, text in kept.items():
        write(os.path.join(proofs, name + ".antt"), text)
    write(os.path.join(proofs, "Lib.antt"), "".join("pub mod %s\n" % name for name in LEMMAS))


def copied(directory):
    """A copy of the crates that are needed, with what was proved of them."""
    copy, lines = os.path.join(directory, "copy"), needed()
    os.mkdir(copy)
    shutil.copy2(os.path.join(TOP, "HANDLES"), copy)
    for name in lines:
        shutil.copytree(os.path.join(TOP, "crates", name), os.path.join(copy, "crates", name), symlinks=True)
    write(os.path.join(copy, "crates.txt"), "".join(lines.values()) + LINE)
    leave_lemmas_out(os.path.join(copy, "crates/model_scanner/proofs"))
    subprocess.run(["git", "init", "-q", copy], check=True)
    return copy


def change(copy, wrong):
    path = os.path.join(copy, SPECS, wrong.file)
    with open(path, encoding="utf-8") as f:
        text = f.read()
    for old, new in wrong.pairs:
        if text.count(old) != 1:
            sys.exit("models.py: %s has not just one %r" % (wrong.file, old))
        text = text.replace(old, new)
    write(path, text)


def refute(copy, wrong):
    """The first line that says why the law is not refuted, or None where it is."""
    row, crate = wrong.row, os.path.join(copy, "crates/refuted")
    run = "here"
    for fetch in range(len(row.steps) + 2):
        run = "there refl refl (%s)" % run
    unfolded = " ".join((CLASSES, SCALARS, BLOCKS, TAGS)).replace(",", "")
    write(os.path.join(crate, "src/lib.rt"), CODE)
    write(os.path.join(crate, "specs/Lib.antt"), "pub mod Refuted\n")
    write(os.path.join(crate, "specs/Refuted.antt"), STATED)
    write(os.path.join(crate, "proofs/Lib.antt"), "pub mod Differ\n")
    write(os.path.join(crate, "proofs/Differ.antt"), PROOF % {
        "classes": CLASSES, "scalars": SCALARS, "blocks": BLOCKS, "tags": TAGS, "unfolded": unfolded, "text": row.text, "proof": row.proof(), "run": run,
        "steps": " ∷ ".join(row.steps), "of_row": " ∷ ".join(row.tokens), "of_model": " ∷ ".join(wrong.tokens),
    })
    done = subprocess.run(["rt", "check"], cwd=crate, capture_output=True, text=True)
    lines = (done.stdout + done.stderr).split("\n")
    return next((line for line in lines if re.search(r"error|not proved", line)), lines[-1]) if done.returncode else None


def main():
    p = argparse.ArgumentParser()
    p.add_argument("--only", choices=list(WRONG))
    a = p.parse_args()
    failed = 0
    for name, wrong in WRONG.items():
        if a.only in (None, name):
            with tempfile.TemporaryDirectory() as directory:
                copy = copied(directory)
                right = refute(copy, wrong)
                change(copy, wrong)
                why = refute(copy, wrong)
            differs = right is not None and "has_tokens" in right
            print("%s (%s): the law is %s" % (name, wrong.deed, "NOT REFUTED: " + why if why else "refuted"))
            print("    of the right model it %s" % ("is not: its tokens are others" if differs else "MAY BE REFUTED TOO: %s" % right), flush=True)
            failed += why is not None or not differs
    sys.exit(failed > 0)


if __name__ == "__main__":
    main()
