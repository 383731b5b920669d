#!/usr/bin/env python3
"""Brings the repository's own definitions and lemmas to the spelling of today's Rattle.

usage: python3 tools/respell.py [FOLDER]      once, at the top of the repository, after the kit's port.py

Functions, lemmas, fields and constructors of specs/ and proofs/ are in snake case. Three lemmas had the
name of a definition but for a dash, and end in _lem. A list checked entry by entry is AllByRecursion,
which is its name in the library: the gate takes no other thing under the name All.
"""

import os
import re
import sys

NAMES = """
accepted-answer accepted_answer
accepted-entries accepted_entries
accepted-entry accepted_entry
accepted-fine accepted_fine
accepted-handed accepted_handed
accepted-long accepted_long
accepted-verdict accepted_verdict
after-fits after_fits
after-lent after_lent
after-lent-short after_lent_short
after-short after_short
answer-fits answer_fits
answer-short answer_short
asInstance as_instance
at-finger at_finger
at-rail at_rail
at-record at_record
at-run at_run
atEnd at_end
begin-again begin_again
begun-byte begun_byte
begun-length begun_length
behind-end behind_end
bufferAfter buffer_after
bytes-before bytes_before
bytes-push bytes_push
ceiling-enough ceiling_enough
ceiling-least ceiling_least
ceiling-most ceiling_most
checked-answer checked_answer_lem
checkedAnswer checked_answer
checkedBuffer checked_buffer
circuitOf circuit_of
class-of-parts class_of_parts
commandVerdict command_verdict
commandsOffset commands_offset
commandsVerdict commands_verdict
count-least count_least
cut-none cut_none
cut-remark cut_remark
cut-transistor cut_transistor
decides-class decides_class
decides-equal decides_equal
decides-from-eq decides_from_eq
decides-kind decides_kind
decides-net decides_net
deck-back deck_back
deck-entries deck_entries_lem
deck-lawful deck_lawful
deck-length deck_length
deck-told deck_told
deckBytes deck_bytes
deckEntries deck_entries
deckTells deck_tells
deckVerdict deck_verdict
either-none either_none
end-room end_room
end-verdict end_verdict
entries-back entries_back
entries-length entries_length
entriesBytes entries_bytes
entriesIn entries_in
entry-back entry_back
entryBytes entry_bytes
entryThen entry_then
equal-from equal_from
err-ok err_ok
faultLine fault_line
few-lawful few_lawful
finger-at finger_at
finger-least finger_least
finger-most finger_most
finger-narrow finger_narrow
finger-place finger_place
finger-range finger_range
fingerCount finger_count
fingerPosition finger_position
fingerWidth finger_width
fingers-even fingers_even
fingers-more fingers_more
fingers-of-twins fingers_of_twins
fingers-widths fingers_widths
first-length first_length
firstUnfit first_unfit
fit-verdict fit_verdict
fits-all-range fits_all_range
fits-range fits_range
folded-lawful folded_lawful
folded-narrow folded_narrow
folded-range folded_range
folded-widths folded_widths
foldedBy folded_by
folds-twins folds_twins
folds-well folds_well
from-common from_common
from-narrow from_narrow
from-range from_range
from-widths from_widths
front-begin front_begin
front-cut-remark front_cut_remark
front-cut-transistor front_cut_transistor
front-operands front_operands
front-range front_range
front-unknown front_unknown
front-whole front_whole
front-widths front_widths
housePile house_pile
in-common in_common
inInstance in_instance
inWidths in_widths
instance-range instance_range
instance-widths instance_widths
instanceNet instance_net
instanceText instance_text
instanceTold instance_told
instances-range instances_range
instances-widths instances_widths
instancesFrom instances_from
instancesLeft instances_left
isPaired is_paired
keeps-fit keeps_fit
keeps-push keeps_push
kept-lawful kept_lawful
kind-same kind_same
kindFits kind_fits
kindText kind_text
lawful-length lawful_length
layerNumber layer_number
left-of-none left_of_none
left-whole left_whole
length-after length_after
length-fingers length_fingers
length-line length_line
length-one length_one
likeOf like_of
limitOf limit_of
line-written line_written
lineText line_text
looked-like looked_like
made-same made_same
many-verdict many_verdict
narrowFront narrow_front
net-same net_same
netsText nets_text
no-begin no_begin
no-edition no_edition
no-remark no_remark
no-remarks no_remarks
no-transistor no_transistor
none-fine none_fine
none-past none_past
none-unfit none_unfit
nth-behind nth_behind
nth-counting nth_counting
nth-front nth_front
numberField number_field
numberNet number_net
numberText number_text
numberTold number_told
onEnd on_end
onR on_r
onRemark on_remark
onT on_t
onTransistor on_transistor
one-instance one_instance
one-or-none one_or_none
opened-entries opened_entries
opened-fine opened_fine
opened-verdict opened_verdict
openingVerdict opening_verdict
operandOffset operand_offset
other-edition other_edition
over-byte over_byte
over-cons over_cons
over-lent over_lent
over-more over_more
overAt over_at
pairingSide pairing_side
pairingText pairing_text
part-behind part_behind
pass-entries pass_entries
pass-verdict pass_verdict
passed-remark passed_remark
passed-size passed_size
passed-transistor passed_transistor
pile-lawful pile_lawful
pileRest pile_rest
plain-number plain_number
position-few position_few
positions-append positions_append
positions-fingers positions_fingers
positions-folded positions_folded
positionsOn positions_on
put-more put_more
put-text put_text
rails-are-shared rails_are_shared
record-back record_back
recordAt record_at
records-back records_back
records-push records_push
recordsOf records_of
refused-answer refused_answer
refused-handed refused_handed
refused-verdict refused_verdict
remark-entries remark_entries
remark-size remark_size
remark-verdict remark_verdict
remarksOf remarks_of
rest-begun rest_begun
rowFits row_fits
rowRest row_rest
rowTold row_told
runs-even runs_even
runsOn runs_on
same-itself same_itself
sameClass same_class
sameKind same_kind
sameNet same_net
sameSide same_side
says-size says_size
short-verdict short_verdict
sideFits side_fits
sideText side_text
some-within some_within
sound-entries sound_entries
sound-verdict sound_verdict
standsOn stands_on
stated-false stated_false
stated-fit stated_fit
stated-same stated_same
stated-true stated_true
statedBy stated_by
step-here step_here
step-later step_later
step-length step_length
step-none step_none
step-some step_some
step-widths step_widths
stopped-transistor stopped_transistor
stopped-unreadable stopped_unreadable
stops-verdict stops_verdict
table-accepted table_accepted
table-checked table_checked
table-lawful table_lawful
tableDeck table_deck
tableVerdict table_verdict
text-more text_more
text-room text_room
told-accepted told_accepted
told-length told_length
told-row told_row
told-transistor told_transistor
toldBy told_by
totalsText totals_text
transistor-entries transistor_entries
transistor-room transistor_room
transistor-size transistor_size
transistor-verdict transistor_verdict_lem
transistorVerdict transistor_verdict
twins-of-fingers twins_of_fingers
unfit-all unfit_all
unfit-here unfit_here
unfit-more unfit_more
unfitFrom unfit_from
unopened-byte unopened_byte
unopened-edition unopened_edition
unopened-none unopened_none
unopened-short unopened_short
unopened-verdict unopened_verdict
unreadable-none unreadable_none
unreadable-verdict unreadable_verdict
untold-all untold_all
untold-more untold_more
verdict-few verdict_few
wider-few wider_few
wider-more wider_more
widthFits width_fits
writer-done writer_done
writer-refused writer_refused
writer-room writer_room
writer-short writer_short
writerAnswer writer_answer
writerBuffer writer_buffer
written-again written_again
"""

TOKEN = re.compile(r"(?<![\w'-])[A-Za-z_][\w'-]*")


def respelled(text, names):
    if "AllByRecursion as All" in text:
        text = text.replace("AllByRecursion as All", "AllByRecursion")
        names = names | {"All": "AllByRecursion"}
    return TOKEN.sub(lambda m: names.get(m[0], m[0]), text)


def main(top):
    names = dict(line.split() for line in NAMES.split("\n") if line)
    changed = 0
    for folder, _, files in os.walk(os.path.join(top, "crates")):
        inside = os.path.relpath(folder, top).split(os.sep)
        if len(inside) < 3 or inside[2] not in ("src", "specs", "proofs"):
            continue
        for name in files:
            if not name.endswith((".rt", ".antt")):
                continue
            path = os.path.join(folder, name)
            with open(path, encoding="utf-8") as file:
                old = file.read()
            new = respelled(old, names)
            if new != old:
                with open(path, "w", encoding="utf-8") as file:
                    file.write(new)
                changed += 1
    print(f"{changed} files respelled")


if __name__ == "__main__":
    main(sys.argv[1] if len(sys.argv) > 1 else ".")
