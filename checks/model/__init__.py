"""A model of `scald verify`, `notes`, `margins`, `chains`, `slack`, `explain` and `sections`: a second account of what a
drawing means, and several together.

It is written from docs/LANGUAGE.md and docs/MEANING.md, in other words than the definitions in crates/*/specs and
with none of the program's methods: it goes slot by slot and tick by tick, evaluates every net in every round, and
keeps nothing from one case for the next. So a mistake in the definitions themselves, which no proof can show, shows as a
difference between the model and the program. checks/model.sh compares the two over random drawings.

In the order in which a drawing flows through them:

    drawing     the tree of a drawing          values    the seven values
    writing     its text, and its places       waves     waves with a skew
    assertions  what signal names assert       elements  what elements make of waves
    names       refusals before the expansion  rounds    rounds, cases and cones, the printed tick
    expansion   its circuit, or a refusal      faults    what checkers, marks and assertions find in waves
    circuit     nets, pins and instances       margins   how much more checkers may ask for
    rules       a circuit's own rules, cases   chains    where faults come from
                                               slack     by how much each limit is met, and the changes that come to it
                                               spots     where the names of nets stand in a drawing
                                               report    the answers: their lines and statuses
                                               notes     likely omissions
                                               sections  several drawings, each by itself, and joined

It is tried on random_drawings, with patterns that chance would seldom draw; mending and spoiling make most of them good,
and some bad in a chosen way; on path_drawings, whose limits have paths of several elements; and on the lists of drawings
of random_sections. __main__ tries them; laws tries what must
hold of every margin, chain and slack in the model alone.

The model begins with the tree and has no reader: texts that the grammar refuses, and limits on how much there may be
(TooMany and most of TooDeep), are not in it.
"""
