#!/usr/bin/env python3
"""Turns the names of this repository's definitions, lemmas, constructors and ghost members to the spelling of today's
Rattle: words in snake case, types and facts in upper camel case, a dash only between two names.

usage: python3 tools/respell.py [FOLDER]     once, right after /opt/rattle/port/port.py; FOLDER is the repository's top

Comments and strings stay as they are, and so do the functions of src/.
"""
import os
import re
import sys

# old name, new name
TABLE = """
#position-1 #position_1
BLANK-NODE-LABEL BLANK_NODE_LABEL
Closure-exists ClosureExists
Derivations-are-least DerivationsAreLeast
Ends-line EndsLine
Examples-hold ExamplesHold
Exceeds-by-size ExceedsBySize
Goal-true GoalTrue
Goes_on GoesOn
In-closure InClosure
Judged-triple JudgedTriple
Lawful-as LawfulAs
Line-at LineAt
Makes-true MakesTrue
Of-terms OfTerms
One-spelling OneSpelling
Position-named PositionNamed
Reads-back ReadsBack
Row-named RowNamed
Run-to RunTo
STRING-LITERAL-QUOTE STRING_LITERAL_QUOTE
Stays-within-terms StaysWithinTerms
Stuck-escape StuckEscape
True-of-names TrueOfNames
World-of WorldOf
a-comment a_comment
a-fault a_fault
a-label a_label
a-literal a_literal
adding-cases adding_cases
adding-had adding_had
adding-off adding_off
adding-on adding_on
adds-puts adds_puts
after-cr after_cr
after-of after_of
after-stuck after_stuck
agrees-decides agrees_decides
all-by-test all-by_test
all-one-spelling all-one_spelling
all-read-back all_read_back
all-resources all_resources
all-unmap all_unmap
alt'-is alt'_is
alt-is alt_is
among-push among_push
an-iri an_iri
as-escape as_escape
at-end at_end
at-is at_is
away-out away_out
bare-is bare_is
bare-lf bare_lf
bare-not-cr bare_not_cr
begins-in begins_in
begins-shorter begins_shorter
bit-other bit_other
bit-put bit_put
bit-shr bit_shr
bit-suc bit_suc
bit-zero bit_zero
blank-property blank_property
body-means body_means
body-pieces body_pieces
body-splits body_splits
build-comment build_comment
build-datatype build_datatype
build-escape build_escape
build-holds build_holds
build-iri build_iri
build-label build_label
build-literal build_literal
build-string build_string
build-subtag build_subtag
build-tag build_tag
by-iri by_iri
by-plain by_plain
by-tagged by_tagged
by-typed by_typed
byte-in byte_in
byte-is byte_is
canonical-is canonical_is
capacityOf capacity_of
cases-triple cases_triple
class-at class_at
class-step class_step
classes-in-resource classes_in_resource
code-of-triple code_of-triple
code-only code_only
comment-or-nothing comment_or_nothing
commentChar comment_char
cr-is cr_is
cube-in cube_in
cube-inside cube_inside
cube-lawful cube_lawful
cube-more cube_more
cube-none cube_none
cube-some cube_some
cuts-or cuts_or
datatypes-in-literal datatypes_in_literal
der-is der_is
ders-out ders_out
digits-then-end digits_then_end
domain-of domain_of
drop-some drop_some
empty-line empty_line
ends-in ends_in
ends-not ends_not
eq-same eq_same
escape-in escape_in
escape-of escape_of
escape-stuck escape_stuck
escapeLetter escape_letter
escaped-byte escaped_byte
escaped-code escaped_code
fault-number fault_number
findings-with findings_with
first-is first_is
first-right first_right
first-set first_set
form-kind form_kind
found-are found_are
found-with found_with
from-kept from_kept
goes-not goes_not
goes-on-before goes_on_before
goes-on-shorter goes_on_shorter
halt-high halt_high
halt-letter halt_letter
halt-other halt_other
halt-short halt_short
has-by-test has_by_test
has-cond has_cond
has-cond-here has_cond-here
has-later has_later
has-map has_map
head-eq head_eq
holds-line holds_line
if-so if_so
in-cube in_cube_lem
in-iri in_iri
in-line in_line
in-string in_string
in-term in_term
inCube in_cube
iri-chars iri_chars
iri-name iri_name
iri-or-literal iri_or_literal
iriChar iri_char
is-a-comment is_a_comment
is-a-triple is_a_triple
is-adding is_adding
is-comment is_comment
is-empty is_empty
is-letter is_letter
is-nothing is_nothing
is-object is_object
is-predicate is_predicate
is-subject is_subject
is-triple is_triple
isName is_name
kind-of kind_of
labelChar label_char
last-in last_in
lawful-or-not lawful_or_not
least-side least_side
letter-goes letter_goes
letterU letter_u
line-by line_by
line-reading line_reading
lines-moved lines_moved
literal-in-range literal_in_range
located-term located_term
long-number long_number
long-object long_object
long-predicate long_predicate
long-subject long_subject
loops-before loops_before
loops-ended loops_ended
loops-iri loops_iri
loops-label loops_label
loops-remark loops_remark
loops-start loops_start
loops-string loops_string
loops-sub loops_sub
loops-tag loops_tag
low-set low_set
low-star low_star
lowExpr low_expr
lowRanges low_ranges
many-back many_back
matches-decides matches_decides
memberships-under-member memberships_under_member
names-denote-things names_denote_things
names-start names_start
next-is next_is
nil-left nil_left
nil-parts nil_parts
nil-right nil_right
no-at no_at
no-carets no_carets
no-colon no_colon
no-cons no_cons
no-dot no_dot
no-ended no_ended
no-fault no_fault
no-full no_full
no-hyphen no_hyphen
no-iri no_iri
no-nil no_nil
no-remark no_remark
no-split-end no_split_end
no-split-letter no_split_letter
no-string no_string
no-suffix no_suffix
no-thing no_thing
no-verb no_verb
not-all not_all
not-both not_both
not-both-after not_both-after
not-comment not_comment
not-empty not_empty
not-halted not_halted
not-lettered not_lettered
not-longer not_longer
not-nothing not_nothing
nothing-kept nothing_kept
nullable-in nullable_in
nullable-out nullable_out
number-then-end number_then_end
o-at o_at
of-comments of_comments
of-empty of_empty
of-kind of_kind
of-line of_line
of-lines of_lines
of-triples of_triples
on-escape on_escape
on-slash on_slash
onNext on_next
one-lines one_lines
one-spelling one_spelling
one-term one_term
one-verdicts one_verdicts
only-properties-pair only_properties_pair
or-bit or_bit
or-one or_one
other-bit other_bit
over-or-not over_or_not
p-at p_at
pairs-are-of-things pairs_are_of_things
passed-in passed_in
passed-not passed_not
piece-join piece_join
piece-whole piece_whole
pieces-spell pieces_spell
plain-goes plain_goes
plain-name plain_name
positions-of positions_of
positions-start positions_start
pow-here pow_here
pow-there pow_there
properties-are-things properties_are_things
property-is-typed property_is_typed
quoted-then quoted_then
rdf-fixed rdf_fixed
rdf-start rdf_start
rdfs-fixed rdfs_fixed
rdfs-start rdfs_start
reads-back reads_back
records-lawful records_lawful
refusal-at refusal_at
refusal-number refusal_number
roomIn room_in
row-bit row_bit
row-none row_none
row-some row_some
run-from run_from
run-some run_some
run-spells run_spells
s-at s_at
same-pieces same_pieces
same-term same_term
sc-classes sc_classes
sc-members sc_members
sc-reflexive sc_reflexive
sc-transitive sc_transitive
seq-is seq_is
set-step set_step
sideOf side_of
size-adding-le size-adding_le
size-le size_le
skip-in skip_in
skip-out skip_out
slash-first slash_first
slash-goes slash_goes
slash-splits slash_splits
slash-stuck slash_stuck
snoc-last snoc_last
some-membership some_membership
sp-pairs sp_pairs
sp-properties sp_properties
sp-reflexive sp_reflexive
sp-transitive sp_transitive
split-is split_is
splits-escape splits_escape
splits-plain splits_plain
star-join star_join
star-snoc star_snoc
star-wider star_wider
start-is-true start_is_true
step-out step_out
steps-current steps_current
steps-one steps_one
steps-size steps_size
string-chars string_chars
string-of string_of
string-stuck string_stuck
stringChar string_char
subject-in subject_in
subject-more subject_more
subject-some subject_some
tagged-name tagged_name
tail-eq tail_eq
tally-ext tally_ext
tally-le tally_le
tally-off tally_off
tells-room tells_room
term-line term_line
then-back then_back
then-front then_front
token-iri token_iri
token-literal token_literal
triple-eq triple_eq
triple-of-code triple_of_code
triple-spells triple_spells
two-first two_first
typed-is-property typed_is_property
typed-name typed_name
ucharLetter uchar_letter
unbroken-from unbroken_from
walk-all walk_all
where-from where_from
whole-line whole_line
with-comment with_comment
with-dot with_dot
with-triple with_triple
with-word with_word
word-put word_put
zeros-clear zeros_clear
zeros-set zeros_set
"""

NAMES = dict(line.split() for line in TABLE.split("\n") if line)
EDGE = r"\w'\u2032\u25cc#-"
WORD = re.compile(rf"(?<![{EDGE}])(?:{'|'.join(sorted(map(re.escape, NAMES), key=len, reverse=True))})(?![{EDGE}])")
# what is left alone: comments and strings
APART = {".antt": re.compile(r'("[^"\n]*")|((?:^|(?<=\s))--(?=\s|$).*)', re.M), ".rt": re.compile(r'("(?:[^"\\\n]|\\.)*")|(//.*)')}


def respelled(text, apart):
    out, at = [], 0
    for m in apart.finditer(text):
        out.append(WORD.sub(lambda w: NAMES[w.group()], text[at : m.start()]))
        out.append(m.group())
        at = m.end()
    out.append(WORD.sub(lambda w: NAMES[w.group()], text[at:]))
    return "".join(out)


def main():
    top = sys.argv[1] if len(sys.argv) > 1 else "."
    for folder, dirs, files in os.walk(os.path.join(top, "crates")):
        dirs[:] = sorted(d for d in dirs if d != "out")
        for name in sorted(files):
            apart = APART.get(os.path.splitext(name)[1])
            if apart is None:
                continue
            path = os.path.join(folder, name)
            with open(path, encoding="utf-8") as f:
                old = f.read()
            new = respelled(old, apart)
            if new != old:
                with open(path, "w", encoding="utf-8") as f:
                    f.write(new)


main()
