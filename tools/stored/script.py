"""The replay script: all its parts, in their order."""
from document.hold import hold
from document.known_results import hold_worked_block
from stored.parts.blocks import cuts, flipped_bits, forms_of_blocks, places_in_blocks, two_faults
from stored.parts.calls import (
    places, refused_appends, refused_corrections, same_reels, sizes, the_empty_reel, the_worked_block,
)
from stored.parts.chance import calls_by_chance
from stored.parts.combinations import (
    causes_of_combinations, combinations_by_chance, forms_of_combinations, full_combinations, multipliers, sizes_at_every_knot,
    sizes_of_sums, sums_and_differences, sums_with_readings, unlike_reels, values_of_sums, wide_sums,
)
from stored.parts.full_reels import a_flat_reel, full_reels, greatest_totals
from stored.parts.lines import lines_passed_over, long_lines, the_last_line, unreadable_lines
from stored.parts.queries import (
    all_pairs_and_gaps, all_ranges, all_ranges_to_the_limits, around_knots, known_results, queries_of_few_knots, refused_queries,
    trends_at_lone_readings,
)
from stored.parts.readings import (
    bits_of_readings, causes_of_views, chosen_knots, forms_of_views, full_blocks, operators_answers, products,
    readings_by_chance_tried, readings_of_every_count, strides_and_indices,
)
from stored.parts.rounding import (
    many_roundings, rounded_sums, trends_at_halves, trends_beside_halves, trends_with_halves_within, values_at_halves,
    values_beside_halves, values_with_halves_within,
)
from stored.parts.same import (
    coefficients_exchanged, each_bit_of_a_coefficient, each_bit_of_a_position, full_reels_compared, lowered_grades,
    one_thing_changed, same_with_readings, unlike_grades,
)
from stored.parts.spots import (
    each_knot_in_turn, other_causes_of_appends, other_causes_of_sums, several_too_large_in_appends,
    several_too_large_in_corrections, single_too_large, too_large_among_faults, too_large_at_ends, too_large_by_chance,
    too_large_in_appends, too_large_in_blocks, too_large_in_corrections, too_large_in_full_blocks, too_large_in_sums,
    too_large_in_wide_sums,
)
from stored.replay_lines import answers_to
from stored.transcript import Transcript

PARTS = [
    the_worked_block,
    the_empty_reel,
    refused_appends,
    refused_corrections,
    sizes,
    places,
    forms_of_blocks,
    places_in_blocks,
    two_faults,
    cuts,
    flipped_bits,
    same_reels,
    lines_passed_over,
    unreadable_lines,
    full_reels,
    queries_of_few_knots,
    refused_queries,
    known_results,
    around_knots,
    all_pairs_and_gaps,
    all_ranges,
    greatest_totals,
    calls_by_chance,
    a_flat_reel,
    all_ranges_to_the_limits,
    long_lines,
    readings_of_every_count,
    operators_answers,
    strides_and_indices,
    products,
    chosen_knots,
    causes_of_views,
    bits_of_readings,
    forms_of_views,
    readings_by_chance_tried,
    full_blocks,
    trends_at_lone_readings,
    sums_and_differences,
    multipliers,
    unlike_reels,
    sizes_of_sums,
    sizes_at_every_knot,
    wide_sums,
    causes_of_combinations,
    sums_with_readings,
    forms_of_combinations,
    values_of_sums,
    full_combinations,
    combinations_by_chance,
    values_at_halves,
    values_beside_halves,
    values_with_halves_within,
    trends_at_halves,
    trends_beside_halves,
    trends_with_halves_within,
    rounded_sums,
    many_roundings,
    too_large_in_appends,
    several_too_large_in_appends,
    other_causes_of_appends,
    too_large_in_corrections,
    several_too_large_in_corrections,
    too_large_at_ends,
    single_too_large,
    too_large_in_blocks,
    too_large_in_sums,
    each_knot_in_turn,
    too_large_among_faults,
    too_large_in_full_blocks,
    too_large_in_wide_sums,
    other_causes_of_sums,
    too_large_by_chance,
    unlike_grades,
    one_thing_changed,
    coefficients_exchanged,
    each_bit_of_a_coefficient,
    each_bit_of_a_position,
    lowered_grades,
    same_with_readings,
    full_reels_compared,
    the_last_line,
]


def transcript():
    """The whole script. Fed in again, it gives the answers that stand in it."""
    hold_worked_block()
    script = Transcript()
    for part in PARTS:
        script.passed_over(f"# {part.__doc__}")
        part(script)
    hold(answers_to(script.text()) == script.answers, "the transcript, fed in again, gives other answers")
    return script
