"""Parts of random text, well-formed and malformed, and random cuts."""

# well-formed characters of each length, including the ends of the ranges of UTF-8
CHARACTERS = [chr(code).encode() for code in (
    0x80, 0x85, 0x9F, 0xA0, 0xE9, 0x301, 0x7FF, 0x800, 0xFFF, 0x1000, 0x4E2D, 0xD7FF, 0xE000,
    0xFFFD, 0xFFFE, 0xFFFF, 0x10000, 0x1F600, 0x3FFFF, 0x40000, 0xFFFFF, 0x100000, 0x10FFFF)]
MALFORMED = [bytes.fromhex(text) for text in (
    "80 85 9c a0 bf c0 c1 c080 c0af c1bf c2 df e0 e080 e08080 e09f e09fbf e0a0 e1 e4bf ed ed9f "
    "eda0 eda080 ee80 f0 f080 f0808080 f08f f08fbfbf f090 f09080 f09f98 f1 f48f f48fbf f490 "
    "f4908080 f5 f5808080 fe ff c3c3a9 e4bde4bda0 f09f98f09f9880 e4bf18 e4bf0a c37f f09f981b "
    "e21b5b6d c21b5d f18080c285").split()]


def cut_at_random(chance, stream, share):
    """The stream in chunks, cut at about this share of its positions. Some chunks are empty."""
    cuts = [position for position in range(len(stream) + 1) if chance.random() < share]
    if cuts and chance.random() < 0.2:
        cuts = sorted([*cuts, chance.choice(cuts)])
    return cut_at(stream, cuts)


def cut_at(stream, cuts):
    return [stream[start:end] for start, end in zip([0, *cuts], [*cuts, len(stream)])]
