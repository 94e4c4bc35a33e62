#!/usr/bin/env python3
"""Spells the definitions and lemmas of specs/ and proofs/ as Rattle now does: words in snake case, a dash only between two names.

usage: tools/respell.py        at the top of the repository, once, right after the kit's port.py

A name in camel case is turned wherever it stands. A name with a dash is turned in proof files, outside their comments, and in the
clauses of src/. Functions, types, strings, inputs and outputs keep their names. Where a lemma would have gained the name of a
definition, it ends in _lem.
"""

import os
import re

NAMES = dict(pair.split("=") for pair in """
a-binary=a_binary a-havoc=a_havoc a-literal=a_literal a-unary=a_unary accepted-commands=accepted_commands accepted-kept=accepted_kept
afterAll=after_all afterBegin=after_begin afterCommand=after_command afterCommands=after_commands afterDeclare=after_declare
afterEntries=after_entries afterEntry=after_entry afterFinish=after_finish afterSettle=after_settle alike-weaken=alike_weaken all-assume=all_assume
all-assumed=all_assumed all-begun-ext=all_begun_ext all-belong=all_belong all-below=all_below all-bool=all_bool all-checked-ext=all_checked_ext
all-ext=all_ext all-fits=all_fits all-lawful=all_lawful all-lead=all_lead all-maybe-ext=all_maybe_ext among-all=among_all among-at=among_at
among-more=among_more an-assertion=an_assertion an-assignment=an_assignment an-assumption=an_assumption an-identifier=an_identifier an-old=an_old
answer-runs=answer_runs answers-mean=answers_mean apt-from=apt_from apt-parts=apt_parts argument-next=argument_next argument-not=argument_not
arguments-size=arguments_size arguments-take=arguments_take arguments-typed=arguments_typed arguments-weight=arguments_weight arity-few=arity_few
ascend-from=ascend_from assert-stands=assert_stands asserts-false=asserts_false assign-stands=assign_stands assume-stands=assume_stands
assumedWeight=assumed_weight assumes-checked=assumes_checked assumes-false=assumes_false assumes-pass=assumes_pass assumes-true=assumes_true
at-most-T=at_most_t at-number=at_number atEnd=at_end atPageEnd=at_page_end atTarget=at_target axiom-name=axiom_name axiom-small=axiom_small
axiomNames=axiom_names axiomRule=axiom_rule axiomVerdict=axiom_verdict axioms-true=axioms_true axioms-typed=axioms_typed axiomsV=axioms_v
back-all=back_all back-out=back_out backward-cost=backward_cost backward-mirrors=backward_mirrors backward-ok=backward_ok before-typed=before_typed
begin-at=begin_at beginEnded=begin_ended beginMade=begin_made beginOf=begin_of beginRule=begin_rule beginVerdict=begin_verdict begun-ext=begun_ext
begunOn=begun_on begunPage=begun_page below-is=below_is beq-only=beq_only beq-self=beq_self binaryType=binary_type bind-answer=bind_answer
bind-front=bind_front bind-map=bind_map bind-right=bind_right block-cost=block_cost block-found=block_found block-mirrors=block_mirrors
block-next=block_next block-ok=block_ok block-sound=block_sound block-weighs=block_weighs blockAdded=block_added blockEnded=block_ended
blockFault=block_fault blockFits=block_fits blockFormula=block_formula blockMade=block_made blockNamed=block_named blockPassed=block_passed
blockRefused=block_refused blockRule=block_rule blockSuits=block_suits blockVerdict=block_verdict blockWith=block_with blockedOn=blocked_on
blockedPages=blocked_pages blocks-are=blocks_are blocks-fit=blocks_fit_lem blocks-front=blocks_front blocks-longer=blocks_longer
blocks-stay=blocks_stay blocksFault=blocks_fault blocksFit=blocks_fit bodies-held=bodies_held body-fits=body_fits_lem body-name=body_name
body-small=body_small body-stays=body_stays bodyFits=body_fits bodyIn=body_in bodyNames=body_names bodyScope=body_scope book-is=book_is
book-kept=book_kept book-stays=book_stays bookIn=book_in bookOf=book_of bool-has=bool_has bool-only=bool_only both-ask=both_ask
both-assumed=both_assumed both-done=both_done both-parameters=both_parameters both-tested=both_tested bound-is-T=bound_is_t boundOf=bound_of
by-body=by_body by-book=by_book by-fault=by_fault by-page=by_page by-procedure=by_procedure by-rule=by_rule by-test=by_test by-told=by_told
call-checks=call_checks call-fail=call_fail call-open=call_open call-pass=call_pass call-sound=call_sound call-stands=call_stands
call-taken=call_taken call-typed=call_typed callIf=call_if callTotal=call_total callWeight=call_weight callee-weight=callee_weight_lem
calleeFault=callee_fault calleeWeight=callee_weight calls-false=calls_false calls-stalled=calls_stalled capped-right=capped_right
causeNumber=cause_number changed-place=changed_place changed-type=changed_type checked-ext=checked_ext checked-first=checked_first
checkedCommands=checked_commands checks-cost=checks_cost checks-ext=checks_ext checks-mirror=checks_mirror checks-most=checks_most checks-ok=checks_ok
clause-found=clause_found clause-other=clause_other clause-passes=clause_passes clause-right=clause_right clauseAdded=clause_added
clauseEnded=clause_ended clauseFits=clause_fits clauseNumber=clause_number clauseRuling=clause_ruling clauseWeight=clause_weight
clauses-bools=clauses_bools clauses-done=clauses_done clauses-longer=clauses_longer clauses-mirror=clauses_mirror clauses-ok=clauses_ok
clauses-typed=clauses_typed clausesFault=clauses_fault clausesFit=clauses_fit clausesOf=clauses_of command-sheet=command_sheet
command-sound=command_sound command-takes=command_takes command-weighs=command_weighs commandEnd=command_end commandTotal=command_total
commands-accepted=commands_accepted commands-are=commands_are commands-at=commands_at commands-cost=commands_cost commands-false=commands_false
commands-mirror=commands_mirror commands-ok=commands_ok commands-sound=commands_sound commands-weigh=commands_weigh commandsOf=commands_of
condition-known=condition_known conditionRule=condition_rule conditionVerdict=condition_verdict conditionsFault=conditions_fault
constant-typed=constant_typed constantTypes=constant_types constants-are=constants_are constants-most=constants_most constants-typed=constants_typed
cost-answer=cost_answer cost-bind=cost_bind cost-more=cost_more cost-tell=cost_tell count-below=count_below countOf-le=count_of_le
countOf-push=count_of-push counted-all=counted_all counted-left=counted_left counted-more=counted_more counted-out=counted_out
counted-right=counted_right counts-stay=counts_stay cover-next=cover_next cover-not=cover_not declaration-passes=declaration_passes
declarationAdded=declaration_added declarationEnded=declaration_ended declarationFits=declaration_fits declarationNumber=declaration_number
declarations-held=declarations_held declarations-longer=declarations_longer declarationsFit=declarations_fit declare-at=declare_at
declareMade=declare_made declareOf=declare_of declared-book=declared_book declared-longer=declared_longer declared-passed=declared_passed
declaredAs=declared_as declaredIn=declared_in declaredPage=declared_page draft-is=draft_is drafts-held=drafts_held drop-first=drop_first
drop-next=drop_next drop-some=drop_some each-out=each_out element-found=element_found element-right=element_right elements-done=elements_done
elseMake=else_make end-false=end_false end-spelled=end_spelled end-stands=end_stands endV=end_v ending-typed=ending_typed endingV=ending_v
ends-page=ends_page ensures-name=ensures_name ensures-small=ensures_small ensures-typed=ensures_typed ensuresNames=ensures_names
entries-are=entries_are entries-ext=entries_ext entries-more=entries_more entries-sent=entries_sent entries-spelled=entries_spelled
entries-stand=entries_stand entriesOf=entries_of entry-bools=entry_bools entry-ext=entry_ext entry-is=entry_is entry-spelled=entry_spelled
entry-stands=entry_stands entryWithin=entry_within equivalent-is=equivalent_is errorAt=error_at esV=es_v exact-commands=exact_commands
exact-of=exact_of exit-bools=exit_bools expression-mirrors=expression_mirrors expression-ok=expression_ok expression-typed=expression_typed
extent-stays=extent_stays fails-false=fails_false fails-sound=fails_sound fails-value=fails_value fails-wrong=fails_wrong falls-one=falls_one
false-apart=false_apart false-is=false_is false-is-wrong=false_is_wrong false-run=false_run false-wrong=false_wrong few-blocks=few_blocks
few-commands=few_commands few-few=few_few few-targets=few_targets finds-ext=finds_ext finds-left=finds_left finds-none=finds_none
finish-parts=finish_parts finishEnded=finish_ended finishFault=finish_fault finishMade=finish_made finishOf=finish_of finishVerdict=finish_verdict
first-none=first_none first-reached=first_reached first-shown=first_shown first-zero=first_zero firstChecks=first_checks firstFault=first_fault
firstFormula=first_formula firstFrom=first_from firstLocal=first_local fit-full=fit_full fit-last=fit_last fit-more=fit_more fit-outside=fit_outside
fits-itself=fits_itself fits-places=fits_places follows-entries=follows_entries follows-kept=follows_kept follows-length=follows_length
follows-mirrored=follows_mirrored formed-ext=formed_ext formed-more=formed_more formula-cost=formula_cost formula-mirrors=formula_mirrors
formula-ok=formula_ok formulaOf=formula_of formulaValue=formula_value formulas-at=formulas_at forward-cost=forward_cost
forward-mirrors=forward_mirrors forward-ok=forward_ok found-last=found_last fresh-ends=fresh_ends fresh-goes=fresh_goes fresh-stops=fresh_stops
fsV=fs_v gather-arguments=gather_arguments gather-command=gather_command gather-commands=gather_commands gather-receivers=gather_receivers
gatherAll=gather_all getD-nth=get_or-nth getD-paired=get_or-paired given-typed=given_typed globalTypes=global_types globals-are=globals_are
globals-few=globals_few globals-most=globals_most grown-same=grown_same grownBy=grown_by gsV=gs_v has-olds=has_olds has-reading=has_reading
havoc-stands=havoc_stands held-alike=held_alike held-drafts=held_drafts held-holds=held_holds held-short=held_short heldBody=held_body heldIn=held_in
heldOver=held_over heldWith=held_with hereFormula=here_formula holds-false=holds_false holds-true=holds_true iT=i_t if-reached=if_reached
implies-is=implies_is inUse=in_use insOf=ins_of insV=ins_v is-bool=is_bool is-entry=is_entry isAmong=is_among isBareName=is_bare_name isDigit=is_digit
isFull=is_full isLogic=is_logic isName=is_name is_among=is_among_lem joined-false=joined_false joined-found=joined_found joined-next=joined_next
joined-none=joined_none judged-is=judged_is judgedAs=judged_as justOne=just_one kind-is=kind_is kindOfCall=kind_of_call know-view=know_view
known-earlier=known_earlier knows-ext=knows_ext lacksRoom=lacks_room later-apart=later_apart later-target=later_target lawful-at=lawful_at
lead-ends=lead_ends lead-goes=lead_goes lead-stops=lead_stops leads-after=leads_after leads-taken=leads_taken leaf-spelled=leaf_spelled
leaf-typed=leaf_typed leafFor=leaf_for leafType=leaf_type length-after=length_after length-declaredAs=length-declared_as
length-declaredAs-push=length-declared_as-push length-proceduresIn=length-procedures_in length-proceduresIn-push=length-procedures_in-push
length-statedAs=length-stated_as lies-later=lies_later lies-row=lies_row limits-more=limits_more link-false=link_false links-cost=links_cost
links-mirror=links_mirror links-ok=links_ok links-pass=links_pass listed-behind=listed_behind listed-longer=listed_longer listedIn=listed_in
lists-stay=lists_stay local-place=local_place locals-stay=locals_stay long-front=long_front longEnough=long_enough look-all=look_all
look-found=look_found look-next=look_next looks-left=looks_left looks-none=looks_none made-small=made_small madeBy=made_by maybe-ext=maybe_ext
meantIn=meant_in member-in=member_in middle-typed=middle_typed mirrors-answer=mirrors_answer mirrors-bind=mirrors_bind mirrors-tell=mirrors_tell
mirrors-weaken=mirrors_weaken modified-places=modified_places modifiedBy=modified_by modifiedSoFar=modified_so_far modifiedTypes=modified_types
modifies-ascend=modifies_ascend modifies-globals=modifies_globals modifiesRule=modifies_rule modifiesVerdict=modifies_verdict
moreDeclared=more_declared moreStated=more_stated mostEntries=most_entries mul-large=mul_large nameFor=name_for names-are=names_are namesIn=names_in
never-stopped=never_stopped new-value=new_value newBody=new_body newBook=new_book newNames=new_names newTerm=new_term no-calls=no_calls
no-survey=no_survey no-values=no_values noBlockLeft=no_block_left noClause=no_clause noClauseLeft=no_clause_left noDeclaration=no_declaration
noDeclarationLeft=no_declaration_left noEntry=no_entry noListed=no_listed noProcedure=no_procedure noRoom=no_room non-empty=non_empty none-at=none_at
none-some=none_some not-among=not_among not-refused=not_refused nothing-remains=nothing_remains nothingLeft=nothing_left now-marked=now_marked
nth-below=nth_below nth-map=nth_map numberFor=number_for numberOutcome=number_outcome numbered-adds=numbered_adds numbered-at=numbered_at_lem
numberedAll=numbered_all numberedAt=numbered_at numberedFrom=numbered_from ofKind=of_kind ok-and=ok_and ok-answer=ok_answer ok-bind=ok_bind
ok-equal=ok_equal ok-err=ok_err ok-implies=ok_implies ok-operate=ok_operate ok-tell=ok_tell ok-weaken=ok_weaken old-name=old_name oldType=old_type
onAssign=on_assign onCall=on_call onCondition=on_condition onHavoc=on_havoc onOne=on_one onReceiver=on_receiver onTwo=on_two one-cost=one_cost
one-mirrors=one_mirrors one-sound=one_sound one-spelled=one_spelled operandsAt=operands_at operandsIn=operands_in other-member=other_member
outcomeOf=outcome_of outcomeText=outcome_text outsOf=outs_of outsV=outs_v overOne=over_one overTwo=over_two own-none=own_none ownChecks=own_checks
page-sized=page_sized pageWith=page_with pages-read-back=pages_read_back pagesFault=pages_fault paired-front=paired_front
parameter-name=parameter_name parameter-small=parameter_small parametersFit=parameters_fit parametersOf=parameters_of part-behind=part_behind
part-is=part_is part-longer=part_longer passageWeight=passage_weight passed-book=passed_book passed-ext=passed_ext passed-more=passed_more
paste-before=paste_before paste-there=paste_there phaseAfter=phase_after place-below=place_below place-block=place_block place-next=place_next
place-passed=place_passed placeFrom=place_from placed-from=placed_from places-above=places_above places-ascend=places_ascend places-below=places_below
places-block=places_block places-first=places_first places-marked=places_marked places-reached=places_reached placesAmong=places_among
poppedFrom=popped_from postfix-accepted=postfix_accepted procedure-at=procedure_at_lem procedure-found=procedure_found procedure-is=procedure_is
procedure-none=procedure_none procedure-other=procedure_other procedure-passed=procedure_passed procedure-sound=procedure_sound
procedureAt=procedure_at procedureCount=procedure_count procedureFor=procedure_for procedureNamed=procedure_named procedureOf=procedure_of
procedureRule=procedure_rule procedureVerdict=procedure_verdict procedureWeight=procedure_weight procedures-are=procedures_are
procedures-more=procedures_more procedures-most=procedures_most proceduresIn=procedures_in reached-below=reached_below reaches-refl=reaches_refl
reaches-stops=reaches_stops received-all=received_all receivedAs=received_as receiver-next=receiver_next receiver-not=receiver_not
receiver-stands=receiver_stands receiver-step=receiver_step receivers-all=receivers_all receivers-placed=receivers_placed
receivers-weight=receivers_weight recordAt=record_at records-more=records_more refused-same=refused_same replaced-spelled=replaced_spelled
reportText=report_text requires-name=requires_name requires-small=requires_small requires-true=requires_true requires-typed=requires_typed
requiresNames=requires_names requiresV=requires_v resolved-typed=resolved_typed resolvedCommand=resolved_command restFormula=rest_formula
result-arity=result_arity result-no-symbol=result_no_symbol return-bools=return_bools return-cost=return_cost return-mirrors=return_mirrors
return-ok=return_ok return-totals=return_totals returnTotal=return_total returnWeight=return_weight returns-false=returns_false reviewedAs=reviewed_as
reviewedIn=reviewed_in right-is-sound=right_is_sound room-left=room_left rulingFor=ruling_for run-false=run_false runs-answer=runs_answer
runs-split=runs_split runs-stops=runs_stops runs-tell=runs_tell same-assumed=same_assumed same-err=same_err same-ext=same_ext same-only=same_only
same-tested=same_tested same-type=same_type same-types=same_types sameClause=same_clause sameDeclaration=same_declaration scope-is=scope_is
scopeFor=scope_for scopeIn=scope_in second-shown=second_shown sent-below=sent_below settleMade=settle_made settled-stays=settled_stays
sheet-is=sheet_is sheetOf=sheet_of short-blocks=short_blocks short-clauses=short_clauses shownRuling=shown_ruling shutMade=shut_made sizeAs=size_as
sizesWith=sizes_with some-entry=some_entry some-layout=some_layout some-reading=some_reading some-suits=some_suits some-typed=some_typed
sound-is=sound_is sound-of=sound_of soundBook=sound_book split-all=split_all split-more=split_more ssV=ss_v stands-ext=stands_ext
stands-none=stands_none stands-put=stands_put stands-view=stands_view start-typed=start_typed startT=start_t startV=start_v startValues=start_values
state-stays=state_stays stated-book=stated_book stated-longer=stated_longer stated-passed=stated_passed statedAs=stated_as statedFor=stated_for
statedIn=stated_in step-accepted=step_accepted step-full=step_full step-more=step_more step-refused=step_refused step-unsuited=step_unsuited
stopped-count=stopped_count stopped-mirrored=stopped_mirrored stopped-most=stopped_most stopped-same=stopped_same stops-last=stops_last
stops-page=stops_page succeeds-sound=succeeds_sound succeeds-true=succeeds_true succeeds-value=succeeds_value suits-few=suits_few
suits-some=suits_some sum-all=sum_all survey-all=survey_all survey-many=survey_many survey-more=survey_more survey-unfit=survey_unfit
symbolTypes=symbol_types symbols-at=symbols_at_lem symbols-cost=symbols_cost symbols-mirror=symbols_mirror symbols-most=symbols_most
symbols-ok=symbols_ok symbols-short=symbols_short symbolsAt=symbols_at taken-typed=taken_typed takes-after=takes_after tallied-at=tallied_at
tallied-more=tallied_more tallied-none=tallied_none target-ext=target_ext target-reached=target_reached target-sheet=target_sheet
target-totals=target_totals targetFault=target_fault targetPlaces=target_places targetTotal=target_total targets-are=targets_are
targets-cost=targets_cost targets-later=targets_later targets-mirror=targets_mirror targets-ok=targets_ok targets-sound=targets_sound
targetsFault=targets_fault tellBlock=tell_block tellChecks=tell_checks tellCommands=tell_commands tellEntry=tell_entry tellFormula=tell_formula
tellIfReached=tell_if_reached tellLinks=tell_links tellPage=tell_page tellReturn=tell_return tellSymbols=tell_symbols tellTargets=tell_targets
tellValue=tell_value tellValues=tell_values telling-cost=telling_cost telling-mirrors=telling_mirrors telling-ok=telling_ok tellingFault=telling_fault
term-lawful=term_lawful termAt=term_at tests-checked=tests_checked tests-fail=tests_fail tests-fail-last=tests_fail_last tests-false=tests_false
tests-pass=tests_pass the-place=the_place theError=the_error this-false=this_false this-true=this_true told-as-tree=told_as_tree told-full=told_full
told-lawfully=told_lawfully told-so=told_so told-unsuited=told_unsuited told-whole=told_whole toldTo=told_to toldValue=told_value tooMany=too_many
total-joined=total_joined total-more=total_more tree-back=tree_back tree-typed=tree_typed true-is=true_is true-is-right=true_is_right
truly-false=truly_false truly-true=truly_true truth-holds=truth_holds twice-front=twice_front two-logic=two_logic two-spelled=two_spelled
two-told=two_told typeFor=type_for typeOf-append=type_of-append typeOf-first=type_of_first typeOf-later=type_of_later unaryType=unary_type
unequal-is=unequal_is unfit-some=unfit_some usable-first=usable_first usable-later=usable_later vT=v_t vT'=v_t' value-cost=value_cost
value-mirrors=value_mirrors value-name=value_name value-ok=value_ok value-small=value_small value-stands=value_stands value-takes=value_takes
value-typed=value_typed valueIn=value_in valueNames=value_names valueStanding=value_standing valuedAs=valued_as values-cost=values_cost
values-mirror=values_mirror values-more=values_more values-ok=values_ok values-pass=values_pass values-typed=values_typed valuesIn=values_in
valuesRule=values_rule valuesRuling=values_ruling valuesVerdict=values_verdict variable-typed=variable_typed variableCount=variable_count
variablePlace=variable_place variables-are=variables_are variables-count=variables_count view-typed=view_typed waiting-spelled=waiting_spelled
waitingFor=waiting_for waits-none=waits_none walk-goes=walk_goes walk-on=walk_on walk-stops=walk_stops weightOf=weight_of with-sizes=with_sizes
withBlock=with_block withClause=with_clause withDeclaration=with_declaration withLists=with_lists withProcedure=with_procedure withSheet=with_sheet
withinLimits=within_limits word-told=word_told wordFrom=word_from wordType=word_type written-front=written_front written-most=written_most
wrong-false=wrong_false wrong-is-false=wrong_is_false
""".split())

TOKEN = re.compile(r"(?<![\w'-])[A-Za-zℕ_][\w']*(?:-[\w']+)*")
CLAUSE = re.compile(r"\s*(ghost|requires|ensures)\b")


def turned(text, dashes):
    def word(m):
        w = m.group(0)
        return NAMES.get(w, w) if dashes or "-" not in w else w

    return TOKEN.sub(word, text)


def turn_line(line, proof):
    if proof:
        code, mark, comment = line.partition("--")
        return turned(code, True) + mark + turned(comment, False)
    return turned(line, bool(CLAUSE.match(line)))


def main():
    changed = 0
    for folder, dirs, files in os.walk("crates"):
        dirs[:] = [d for d in dirs if d not in ("out", "must-fail")]
        for name in files:
            if not name.endswith((".antt", ".rt")):
                continue
            path = os.path.join(folder, name)
            with open(path, encoding="utf-8") as f:
                old = f.read()
            new = "".join(turn_line(l, name.endswith(".antt")) for l in old.splitlines(keepends=True))
            if new != old:
                changed += 1
                with open(path, "w", encoding="utf-8") as f:
                    f.write(new)
    print(f"respell: {changed} files changed")


main()
