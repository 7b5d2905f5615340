#!/usr/bin/env python3
"""Respells this repository's definitions and lemmas: words in snake case; a dash only between two names.

usage: python3 tools/respell.py        at the top of the repository, after the toolchain's own port.py, once

It replaces whole names in the .rt and .antt files below crates/, in one pass, so that a name may take the place of
another. Functions of src/, strings, inputs, outputs and must-fail edits are left alone: no name of the table is a
Rust identifier of src/.
"""

import pathlib
import re

NAMES = dict(pair.split("=") for pair in """
accepted-value=accepted_value added-heap=added_heap adopt-fine=adopt_fine adopt-makes=adopt_makes
adoptAnswer=adopt_answer all-low=all_low all-second=all_second answer-all=answer_all answer-more=answer_more
append-fine=append_fine append-joins=append_joins append-on=append_on append-other=append_other
append-to=append_to append-to-fine=append_to_fine appendAnswer=append_answer appended-heap=appended_heap
appended-perm=appended_perm appendedFrom=appended_from appendedRow=appended_row arrivalAnswer=arrival_answer
as-count=as_count as-list=as_list atRest=at_rest at_rest=at_rest_lem begins-at=begins_at beginsWith=begins_with
both-go-on=both_go_on both-promised=both_promised bottom-heap=bottom_heap bottom-perm=bottom_perm by-test=by_test
by-with=by_with bytesOf-low=bytes_of_low came-in=came_in came-is=came_is came-then=came_then
ceilingStep=ceiling_step child-within=child_within clause-back=clause_back clause-faithful=clause_faithful
clause-front=clause_front clause-value=clause_value clauseCodec=clause_codec clauseDecoded=clause_decoded
clauseEncoded=clause_encoded clauseExists=clause_exists cleared-fine=cleared_fine climbs-over=climbs_over
close-fine=close_fine close-left=close_left close-sifted=close_sifted count-is=count_is cut-heap=cut_heap
down-end=down_end down-heap=down_heap down-perm=down_perm downs-heap=downs_heap downs-perm=downs_perm
drain-answer=drain_answer_lem drain-fine=drain_fine drain-heap=drain_heap drain-list=drain_list
drain-lists=drain_lists drainAnswer=drain_answer drainedTo=drained_to dropped-none=dropped_none
dropped-some=dropped_some drops-at=drops_at edit-pop=edit_pop edit-pop-fine=edit_pop_fine editedOf=edited_of
emptyOn=empty_on exists-parts=exists_parts extend-fine=extend_fine extend-heap=extend_heap extend-perm=extend_perm
extendAnswer=extend_answer extended-long=extended_long extendedRow=extended_row first-few=first_few
first-is=first_is first-owed=first_owed firstNo=first_no fits-answer=fits_answer front-greatest=front_greatest
front-heap=front_heap frontSet=front_set frontTaken=front_taken full-other=full_other full-stays=full_stays
gone-is=gone_is gone-out=gone_out gone-then=gone_then good-run=good_run greaterChild=greater_child
held-answer=held_answer highestBit=highest_bit holds-is=holds_is holdsAfter=holds_after holdsOn=holds_on
holdsThrough=holds_through hole-perm=hole_perm if-accepted=if_accepted if-so=if_so in-edit=in_edit_lem
in-turn=in_turn inEdit=in_edit inPhase=in_phase inUse=in_use inUseOf=in_use_of inside-parts=inside_parts
is-full=is_full item-copied=item_copied item-there=item_there joined-again=joined_again joins-behind=joins_behind
joins-front=joins_front keeps-at=keeps_at kept-all=kept_all kept-few=kept_few kept-perm=kept_perm
kindLine=kind_line lacks-answer=lacks_answer lacks-stays=lacks_stays last-first=last_first
lastInFront=last_in_front layer-of=layer_of layer-of-heap=layer_of_heap layer-of-record=layer_of_record
le-if-below=le_if_below le-if-exceeds=le_if_exceeds le-self=le_self le-unless-below=le_unless_below
leaf-kept=leaf_kept leaves-it=leaves_it length-perm=length_perm less-back=less_back
lived-accounted=lived_accounted lives-new=lives_new lives-on=lives_on low-under=low_under lt-not-gt=lt_not_gt
made-value=made_value markAfter=mark_after mid-behind=mid_behind mid-front=mid_front mid-is=mid_is
moves-at=moves_at moves-fine=moves_fine nil-from=nil_from none-answer=none_answer none-at=none_at
none-high=none_high none-sift=none_sift not-allowed=not_allowed not-less=not_less number-back=number_back
number-faithful=number_faithful number-front=number_front number-value=number_value numberAt-front=number_at_front
numberAt-lt=number_at_lt numberCodec=number_codec numberDecoded=number_decoded one-call=one_call
only-done=only_done or-false=or_false or-true=or_true ordered-from=ordered_from other-came=other_came
other-gone=other_gone ours-long=ours_long out-long=out_long pair-back=pair_back pair-decoded=pair_decoded_lem
pair-faithful=pair_faithful pair-front=pair_front pair-value=pair_value pairCodec=pair_codec
pairDecoded=pair_decoded part-long=part_long peek-mut=peek_mut perm-cancel=perm_cancel phaseOf=phase_of
placeAfter=place_after places-are=places_are places-fit=places_fit places-most=places_most
pop-answer=pop_answer_lem pop-fine=pop_fine pop-if=pop_if pop-if-fine=pop_if_fine pop-if-none=pop_if_none
pop-leaves=pop_leaves pop-none=pop_none pop-none-answer=pop_none_answer popAnswer=pop_answer
popIfAnswer=pop_if_answer popped-all=popped_all popped-heap=popped_heap popped-long=popped_long
popped-perm=popped_perm poppedFor=popped_for poppedIf=popped_if poppedRow=popped_row push-accepted=push_accepted
push-adds=push_adds push-fine=push_fine push-stays=push_stays pushAnswer=push_answer pushed-heap=pushed_heap
pushed-perm=pushed_perm pushedAll=pushed_all pushedRow=pushed_row puts-in-order=puts_in_order
rationStep=ration_step rebuilt-heap=rebuilt_heap rebuilt-perm=rebuilt_perm refresh-fine=refresh_fine
refresh-moved=refresh_moved refresh-still=refresh_still refreshAnswer=refresh_answer refused-alike=refused_alike
refuses-arrival=refuses_arrival refuses-clause=refuses_clause refuses-element=refuses_element
refuses-heap=refuses_heap refuses-record=refuses_record refuses-row=refuses_row refuses-run=refuses_run
repeat-next=repeat_next repeat-none=repeat_none reserve-alike=reserve_alike reserve-fits=reserve_fits
reserve-misses=reserve_misses reserve-overflows=reserve_overflows reserveAnswer=reserve_answer rest-is=rest_is
rests-at=rests_at retain-fine=retain_fine retained-heap=retained_heap retained-perm=retained_perm
retainedRow=retained_row reversed-faithful=reversed_faithful reversedCodec=reversed_codec
reversedDecoded=reversed_decoded rise-perm=rise_perm row-in-places=row_in_places row-long=row_long
row-refused=row_refused rowLength=row_length same-long=same_long set-accepts=set_accepts set-fine=set_fine
set-refuses=set_refuses setAnswer=set_answer settle-some=settle_some settled-heap=settled_heap
settled-perm=settled_perm settledRow=settled_row short-answer=short_answer short-heap=short_heap
short-list=short_list siftDown=sift_down siftDownToBottom=sift_down_to_bottom siftDowns=sift_downs
siftToLeaf=sift_to_leaf siftUp=sift_up siftUps=sift_ups sifted-heap=sifted_heap sinks-kept=sinks_kept
sinks-under=sinks_under standingClauses=standing_clauses steppedTo=stepped_to tail-heap=tail_heap
tail-perm=tail_perm tailRebuilt=tail_rebuilt tailTaken=tail_taken tested-front=tested_front
tested-long=tested_long tested-short=tested_short times-cons=times_cons times-perm=times_perm
times-permᴰ=times_permᴰ times-swap=times_swap toldOf=told_of turned-gt=turned_gt turns-from=turns_from
up-end=up_end up-heap=up_heap up-held=up_held up-perm=up_perm ups-heap=ups_heap ups-perm=ups_perm upsFrom=ups_from
value-back=value_back with-element=with_element write-perm=write_perm ys-is=ys_is zeroClause=zero_clause
""".split())

LETTER = r"[\w'\u2032-]"
WORD = re.compile(rf"(?<!{LETTER})({'|'.join(sorted(map(re.escape, NAMES), key=len, reverse=True))})(?!{LETTER})")


def main():
    for path in sorted(pathlib.Path("crates").glob("*/*/**/*")):
        if path.suffix in (".rt", ".antt") and "out" not in path.parts:
            text = path.read_text(encoding="utf-8")
            new = WORD.sub(lambda found: NAMES[found[1]], text)
            if new != text:
                path.write_text(new, encoding="utf-8")


if __name__ == "__main__":
    main()
