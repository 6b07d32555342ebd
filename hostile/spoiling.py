"""What a peer sends, spoiled by dice."""


def front_of(dice, raw):
    """The octets up to one of them, which is not sent either."""
    return raw[:dice.randrange(len(raw))]


def flipped_in(dice, raw):
    """The octets, with others in the place of some."""
    raw = bytearray(raw)
    for _ in range(dice.randint(1, 8)):
        raw[dice.randrange(len(raw))] = dice.randrange(256)
    return bytes(raw)
