"""The card rule, run a second time: a card as the list of its places, a read as a take-out and a put-in.

The proved code goes by the table of six cases; this one never looks at it, but for the name of the outcome.
"""

UP, SAME, DOWN, HIT_BYPASS, INSERT, MISS_BYPASS = range(6)


def read(card, block, priority):
    """The outcome of a read, which changes the list: blocks are any values but None, which is an empty place."""
    size = len(card)
    asked = priority or 1  # a read without a hint has priority 0, and asks for the top
    hit = block in card
    place = card.index(block) + 1 if hit else None
    if hit:
        card.remove(block)
        card.append(None)
    if asked <= size:
        card.insert(asked - 1, block)
        card.pop()
    if not hit:
        return INSERT if asked <= size else MISS_BYPASS
    if asked > size:
        return HIT_BYPASS
    return SAME if asked == place else UP if asked < place else DOWN
