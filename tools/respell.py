#!/usr/bin/env python3
"""Brings the definitions and lemmas that the kit's port.py leaves in an older spelling to the kit's own: words in snake case.

usage: python3 tools/respell.py             at the top of the repository, once, after the kit's port.py: the crates' sources, specs, proofs and edits
       python3 tools/respell.py pages       the same words in README.md and docs/

First come the lemmas that would fall together with a definition's new name (they get `_lem`), each in the folders named; then all words of WORDS.
Names of functions, strings, inputs and outputs are not in the list.
"""

import glob
import re
import sys

LEMMAS = [
    ("start_fits", "start_fits_lem", ["crates/arrays"]),
    ("row_fits", "row_fits_lem", ["crates/pairs"]),
    ("in_order", "in_order_lem", ["crates/claims"]),
    ("in_reach", "in_reach_lem", ["crates/mending"]),
    ("at_pair", "at_pair_lem", ["crates/engine"]),
    ("holds_by", "holds_by_lem", ["crates/pairs"]),
    ("in_scope", "in_scope_lem", ["crates/scans"]),
    ("read_table", "read_table_lem", ["crates/handover/proofs/Laws.antt", "crates/handover/proofs/Cases.antt"]),
    ("result-left", "result_left_lem", ["crates/handover"]),
    ("arrays-read", "arrays_read_lem", ["crates/handover"]),
    ("tables-read", "tables_read_lem", ["crates/handover"]),
    ("as-agent", "as_agent_lem", ["crates/model"]),
]

WORDS = dict(
    line.split()
    for line in """
actAt act_at
actOf act_of
afterRules after_rules
afterStep after_step
agentAt agent_at
agentIn agent_in
agentOf agent_of
agentWeight agent_weight
agentsIn agents_in
allHold all_hold
allHoldBy all_hold_by
andThen-finds and_then-finds
andThen-hit and_then-hit
andThen-join and_then-join
andThen-small and_then-small
andThen-split and_then-split
argBelow arg_below
argIn arg_in
argInside arg_inside
argumentHolds argument_holds
arityMark arity_mark
arrayCountsFit array_counts_fit
arrayForm array_form
arrayFrom array_from
arrayIn array_in
arrayLengthFits array_length_fits
arrayRead array_read
arrayRefusal array_refusal
arraysRead arrays_read
asAgent as_agent
asksA asks_a
atChild at_child
atPair at_pair
attemptIn attempt_in
badAt bad_at
balanceAt balance_at
balanceHolds balance_holds
balanceOf balance_of
balanceSize balance_size
bearsBoth bears_both
beforeOf before_of
bit-rowByte bit-row_byte
bitIn bit_in
bitsSet bits_set
boundEnv bound_env
boundFrom bound_from
breaksPair breaks_pair
byAgent by_agent
byBalance by_balance
byMost by_most
byNode by_node
checkedStep checked_step
childFits child_fits
childrenFit children_fit
choicesOf choices_of
claimAt claim_at
claimBytes claim_bytes
claimBytesIn claim_bytes_in
claimFits claim_fits
claimHolds claim_holds
claimIn claim_in
clear-andThen clear-and_then
comesAfter comes_after
configIn config_in
configOf config_of
countFits count_fits
countsIn counts_in
cutFrom cut_from
decodeTo decode_to
decodeWord decode_word
entriesE entries_e
entriesFor entries_for
entriesFormed entries_formed
entriesIn entries_in
entriesOf entries_of
entryFormed entry_formed
entryIn entry_in
entryIndex entry_index
entryNumbers entry_numbers
entryOf entry_of
everyName every_name
fewBalances few_balances
fewClaims few_claims
fewNames few_names
fewNodes few_nodes
fieldsTo fields_to
fieldsZero fields_zero
figureAt figure_at
figureHolds figure_holds
figuresOf figures_of
figuresPass figures_pass
fileA file_a
filesRefusal files_refusal
firstAgent first_agent
firstBad first_bad
firstMeeting first_meeting
firstReady first_ready
fitBoth fit_both
fitsBeside fits_beside
flowA flow_a
flowE flow_e
formedAt formed_at
foundOf found_of
foundPair found_pair
freeBelow free_below
freeOf free_of
getD-All slice_index-All
getD-cut slice_index-cut
getD-cutFrom slice_index-cut_from
getD-put slice_index-put
getD-rowBytes slice_index-row_bytes
getD-uncut slice_index-uncut
getD-uncutFrom slice_index-uncut_from
getD-written slice_index-written
getD-zeros slice_index-zeros
giveOf give_of
givesTo gives_to
goneOf gone_of
hit-andThen hit-and_then
holdsAt holds_at
holdsBy holds_by
inOrder in_order
inOrderA in_order_a
inReach in_reach
inScope in_scope
isAgent is_agent
isChoice is_choice
isFree is_free
isNew is_new
isNewNode is_new_node
isNext is_next
isOut is_out
isPar is_par
isParam is_param
isReceiver is_receiver
isResource is_resource
isStop is_stop
joinWord join_word
laterRows later_rows
leastA least_a
leastWeight least_weight
leftUnless left_unless
length-rowBytes length-row_bytes
lentRefusal lent_refusal
linkIf link_if
linked-beforeOf linked-before_of
linked-lastOf linked-last_of
listAfter list_after
listTable list_table
liveBy live_by
livePair live_pair
loadFrom load_from
loadIn load_in
loadLeft load_left
manyBounds many_bounds
manyGives many_gives
manyRooms many_rooms
manyRows many_rows
mapAnswer map_answer
mapThread map_thread
markIf mark_if
markIf-length mark_if-length
marked-passIf marked-pass_if
markerCount marker_count
markerFor marker_for
markerIn marker_in
markerMade marker_made
markerOf marker_of
markerRoom marker_room
markersAfter markers_after
markersFit markers_fit
mayCome may_come
meetingAt meeting_at
mendOutput mend_output
mendRefusal mend_refusal
mendReply mend_reply
mendRows mend_rows
mendedRows mended_rows
mendedTable mended_table
mendsA mends_a
mostBalances most_balances
namesFit names_fit
namesTest names_test
needMet need_met
newIn new_in
nextIn next_in
nextLeft next_left
noEnd no_end
noEntry no_entry
noHeavier no_heavier
noStart no_start
noStep no_step
noThread no_thread
noWalk no_walk
nodeAt node_at
nodesA nodes_a
nodesB nodes_b
nodesC nodes_c
nodesE nodes_e
notFirst not_first
notSmallest not_smallest
notTold not_told
numbersOf numbers_of
onAgents on_agents
onAgents-map on_agents-map
onAgents-next on_agents-next
onAgents-same on_agents-same
onAgents-told on_agents-told
onAnswer on_answer
onFound on_found
onLive on_live
onLive-finds on_live-finds
onPair on_pair
onResult on_result
onStep on_step
outsIn outs_in
ownMarked own_marked
packedMend packed_mend
packedOutcome packed_outcome
packedPlace packed_place
packedReply packed_reply
packedStart packed_start
packedStep packed_step
packedWalk packed_walk
paddingFits padding_fits
pairAsks pair_asks
pairsAt pairs_at
pairsOf pairs_of
partsFit parts_fit
passIf pass_if
passIf-length pass_if-length
procAt proc_at
procAt-grow proc_at-grow
readArray read_array
readTable read_table
receiverLeaves receiver_leaves
recordAt record_at
recordFits record_fits
recordOf record_of
refusalIn refusal_in
remarkIn remark_in
remarkOf remark_of
remarkedB remarked_b
repeatedA repeated_a
restZero rest_zero
resultLeft result_left
roomOf room_of
rootFits root_fits
rootLoad root_load
rowBit row_bit
rowBits row_bits
rowByte row_byte
rowByte-small row_byte-small
rowBytes row_bytes
rowBytes-small row_bytes-small
rowBytes-step row_bytes-step
rowFits row_fits
rowSize row_size
rowsA rows_a
rule1At rule1_at
rule2At rule2_at
rule3At rule3_at
rule4At rule4_at
rule5At rule5_at
ruleBelow rule_below
safeRows safe_rows
sameBit same_bit
sameCell same_cell
sameClaim same_claim
sameEntry same_entry
sameMarker same_marker
sameWeight same_weight
saysArray says_array
saysFired says_fired
saysMend says_mend
saysStart says_start
saysStep says_step
saysStride says_stride
saysTable says_table
saysWalk says_walk
sealOf seal_of
secondOut second_out
senderLeaves sender_leaves
sendsBy sends_by
sendsMarked sends_marked
sentAt sent_at
sentCells sent_cells
sentRow sent_row
setClear set_clear
setFits set_fits
setHolds set_holds
setRows set_rows
setSum set_sum
setsOfA sets_of_a
shapeFits shape_fits
shareBit share_bit
sideAt side_at
sizesAnswer sizes_answer
sizesIn sizes_in
sizesOf sizes_of
slotOf slot_of
sortOf sort_of
standsIn stands_in
startFits start_fits
startRefusal start_refusal
startedA started_a
startedB started_b
startedE started_e
startsFit starts_fit
stepIn step_in
stepRows step_rows
steppedE stepped_e
strideAnswer stride_answer
tableA table_a
tableBytesA table_bytes_a
tableCountsFit table_counts_fit
tableD table_d
tableForm table_form
tableH table_h
tableIn table_in
tableLengthFits table_length_fits
tableRead table_read
tableRefusal table_refusal
tablesRead tables_read
threadAt thread_at
threadCount thread_count
threadFormed thread_formed
threadIn thread_in
threadRoom thread_room
threadTest thread_test
threadWords thread_words
threadsFit threads_fit
threadsFormed threads_formed
threadsIn threads_in
threeOfA three_of_a
toLeft to_left
toRight to_right
toldE told_e
toldRows told_rows
trailerAnswer trailer_answer
trailerOf trailer_of
turnIn turn_in
turnedA turned_a
twiceBroken twice_broken
twoBalances two_balances
u16At u16_at
u64At u64_at
unfoldProc unfold_proc
unlessRefused unless_refused
unlessWritten unless_written
unmendedCase unmended_case
unusedZero unused_zero
verdictOf verdict_of
walkCase walk_case
walkEnded walk_ended
walkIn walk_in
walkLeft walk_left
walkRows walk_rows
walkedOf walked_of
weightAt weight_at
weightGone weight_gone
weightsA weights_a
weightsFit weights_fit
wellFormed well_formed
wf-procAt wf-proc_at
withRows with_rows
wordAt word_at
wordFormed word_formed
wordInside word_inside
wordOk word_ok
wordSum word_sum
wordSum-step word_sum-step
wordsE words_e
wordsIf words_if
wordsShare words_share
wordsTest words_test
All-getD All-slice_index
""".strip().splitlines()
)

TOKEN = re.compile(r"[^\s(){}\[\].,;:⌜⌝`\"]+")


def files(places):
    for place in places:
        if place.endswith((".antt", ".md")):
            yield place
        else:
            for end in ("rt", "antt", "edit"):
                yield from glob.glob(f"{place}/**/*.{end}", recursive=True)


def turn(path, words):
    with open(path, encoding="utf-8") as f:
        old = f.read()
    new = TOKEN.sub(lambda m: words.get(m.group(0), m.group(0)), old)
    if new != old:
        with open(path, "w", encoding="utf-8") as f:
            f.write(new)


def main():
    if sys.argv[1:] == ["pages"]:
        for path in ["README.md"] + glob.glob("docs/**/*.md", recursive=True):
            turn(path, WORDS)
        return
    for old, new, places in LEMMAS:
        for path in files(places):
            turn(path, {old: new})
    for path in files(["crates"]):
        turn(path, WORDS)


main()
