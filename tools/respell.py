#!/usr/bin/env python3
"""Respells the repository's own definitions and lemmas: words in snake case.

Run once at the top, after the toolchain's own port script. It changes whole
names in specs/, proofs/, the clauses of src/ and the edits, and in the
documents what stands between backticks. Names of Rust code are not among them.
"""
import pathlib
import re

NAMES = dict(line.split() for line in """
aggregateRefusal aggregate_refusal
aggregated-valid aggregated_valid
agree-above agree_above
agree-back agree_back
agree-below agree_below
agree-forth agree_forth
agree-itself agree_itself
agree-nulls agree_nulls
agree-shown agree_shown
all-at all_at
all-by all_by
all-from-pass all_from_pass
all-joined all_joined
all-listed-is all_listed_is
all-pass-append all_pass_append
all-pass-fails all_pass_fails
all-pass-from all_pass_from
all-pass-map all_pass_map
all-pass-more all_pass_more
all-unmap all_unmap
allColumns all_columns
allMeant all_meant
ambiguous-clashes ambiguous_clashes
among-itself among_itself
among-trans among_trans
answers-law answers_law
anyNullable any_nullable
apart-views apart_views
atNumbers at_numbers
back-cell back_cell
back-null back_null
bare-text bare_text
by-column by_column
by-relation by_relation
byParts by_parts
byText by_text
carriedDep carried_dep
carriedDeps carried_deps
catalogPart catalog_part
cell-of cell_of
columnIn column_in
columnKey column_key
columnNamed column_named
columnOf column_of
columnOrder column_order
columnsOf columns_of
compareBy compare_by
compareColumns compare_columns
compared-none compared_none
compared-some compared_some
compares-alike compares_alike
counting-below counting_below
counting-lists counting_lists
decided-views decided_views
depOf dep_of
dependenciesOf dependencies_of
depsOf deps_of
determined-agree determined_agree
determinedBy determined_by
dropped-equal dropped_equal
dropped-known dropped_known
dropped-next dropped_next
dropped-unknown dropped_unknown
duplicateOf duplicate_of
each-found each_found
each-given each_given
entryOrder entry_order
few-listOf few_list_of
few-names few_names
fieldNamed field_named
fired-all fired_all
fired-among fired_among
first-named first_named
first-place-is first_place_is
first-where-is first_where_is
first-where-map first_where_map
firstPlace first_place
firstPlaces first_places
firstWhere first_where
fit-together fit_together
fitsDep fits_dep
found-is found_is
found-tells found_tells
found-too found_too
front-cell front_cell
front-null front_null
front-shows front_shows
fullAt full_at
fullNameIn full_name_in
fullText full_text
fullTextOf full_text_of
groupKey group_key
gt-is gt_is
hasColumn has_column
hasName has_name
hasName-decides has_name_decides
hasQualifiedName has_qualified_name
hasQualifiedName-decides has_qualified_name_decides
head-is head_is
holdingKeys holding_keys
in-t in_t
inner-true inner_true
is-full is_full
isAmong is_among
isCarried is_carried
isDetermined is_determined
isDropped is_dropped
isKeyOn is_key_on
isListed is_listed
isSingle is_single
isThere is_there
isUnqualified is_unqualified
join-clashes join_clashes
joinRefusal join_refusal
joined-all joined_all
joined-append joined_append
joined-true joined_true
joinedSides joined_sides
keeps-padded keeps_padded
keeps-part keeps_part
keeps-projected keeps_projected
keeps-shown keeps_shown
kept-all kept_all
kept-among kept_among
kept-asked kept_asked
kept-before-more kept_before_more
kept-before-same kept_before_same
kept-decide kept_decide
kept-few kept_few
kept-mapped kept_mapped
kept-over kept_over
kept-passes kept_passes
kept-pushed kept_pushed
kept-room kept_room
kept-skipped kept_skipped
kept-unmapped kept_unmapped
keptBefore kept_before
keptPositions kept_positions
key-added key_added
keyColumns key_columns
keyDependency key_dependency
keyListed key_listed
keys-stand keys_stand
keysOr keys_or
least-all least_all
least-lesser least_lesser
left-is-right left_is_right
left-kept left_kept
left-of left_of
left-padded left_padded
left-true left_true
length-listOf length_list_of
less-not-gt less_not_gt
markAt mark_at
marked-none marked_none
marks-next marks_next
matchedPlaces matched_places
matches-decides-views matches_decides_views
matches-views matches_views
meant-asked meant_asked
meant-within meant_within
missingOf missing_of
modeName mode_name
namedColumns named_columns
names-by names_by
names-fix names_fix
names-mean names_mean
never-null never_null
no-clash no_clash
none-skip none_skip
not-gt not_gt
not-null-above not_null_above
not-refused not_refused
nullableDep nullable_dep
nullableIn nullable_in
nulls-at nulls_at
offsetBy offset_by
once-fixes once_fixes
one-back one_back
one-forth one_forth
one-lacks one_lacks
one-not-null one_not_null
onlyOf only_of
or-key-all or_key_all
orAmbiguous or_ambiguous
orKey or_key
ordered-all ordered_all
ordered-among ordered_among
ordered-few ordered_few
ordered-more ordered_more
outer-stays outer_stays
over-all over_all
over-here over_here
over-more over_more
overTargets over_targets
overrunAny overrun_any
overrunAt overrun_at
oversizeKeys oversize_keys
oversizeOver oversize_over
oversizeTogether oversize_together
oversizeWidth oversize_width
part-true part_true
pass-together pass_together
passes-here passes_here
place-holds place_holds
place-passes place_passes
places-few places_few
places-listed places_listed
places-missing places_missing
places-more places_more
places-within places_within
pointed-more pointed_more
positions-in positions_in
positions-more positions_more
primaryKey primary_key
projected-true projected_true
projectedDep projected_dep
projectedKey projected_key
projectedKeys projected_keys
pushed-all pushed_all
recordOf record_of
reduced-all reduced_all
reduced-among reduced_among
reduced-more reduced_more
reducedBy reduced_by
refusalOf refusal_of
refused-too refused_too
refusedIf refused_if
relationParts relation_parts
relationRank relation_rank
repeat-clashes repeat_clashes
requiredColumns required_columns
right-alone-at right_alone_at
right-is-left right_is_left
right-padded right_padded
right-true right_true
room-extends room_extends
room-pushes room_pushes
row-wide row_wide
ruledIn ruled_in
same-suc same_suc
same-views same_views
sameColumn same_column
sameColumn-decides same_column_decides
sameParts same_parts
sameParts-decides same_parts_decides
schemaErrorOf schema_error_of
schemaNumber schema_number
schemaOf schema_of
schemaPart schema_part
schemaWord schema_word
search-tells search_tells
shows-never-null shows_never_null
sidesRefusal sides_refusal
sift-all sift_all
sift-keep sift_keep
sift-none sift_none
sift-skip sift_skip
so-far-all so_far_all
some-gives some_gives
some-part some_part
somePasses some_passes
sortMark sort_mark
sortMarks sort_marks
sortName sort_name
sortNames sort_names
sortedBy sorted_by
sourcesListed sources_listed
step-all step_all
step-among step_among
survivesNulls survives_nulls
tablePart table_part
tail-is tail_is
take-set-in take_set_in
targetColumns target_columns
targetsFor targets_for
targetsOver targets_over
textAt text_at
textsOf texts_of
then-more then_more
then-of then_of
there-none there_none
there-some there_some
tried-all tried_all
tried-fails tried_fails
tried-more tried_more
tried-none tried_none
tried-passes tried_passes
turnedMulti turned_multi
uniqueKey unique_key
unknownColumn unknown_column
unlessEmpty unless_empty
valueIn value_in
values-equal values_equal
was-refused was_refused
with-and-without with_and_without
withMode with_mode
""".split("\n") if line)

WORD = re.compile(r"(?<![A-Za-z0-9_'-])[A-Za-z][A-Za-z0-9_'-]*")


def respell(text):
    def one(m):
        word = m.group(0)
        # a lower-case name behind a dot is one that the check made, and keeps its spelling
        made = m.start() > 0 and text[m.start() - 1] == "." and word == word.lower()
        return word if made else NAMES.get(word, word)

    return WORD.sub(one, text)


def main():
    for path in sorted(pathlib.Path("crates").rglob("*")):
        if path.suffix in (".antt", ".rt", ".edit") and "out" not in path.parts:
            old = path.read_text()
            new = respell(old)
            if new != old:
                path.write_text(new)
    for path in [pathlib.Path("README.md"), *sorted(pathlib.Path("docs").glob("*.md"))]:
        old = path.read_text()
        new = re.sub("`[^`\n]*`", lambda m: respell(m.group(0)), old)
        if new != old:
            path.write_text(new)


main()
