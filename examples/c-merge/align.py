"""Tags for the parts of versions of a function, guessed: which part of one version is which of another.

No guess can make a wrong merge, since hpr keeps the meaning of the versions whatever the tags are; a bad one costs merges.
"""
import difflib

from parts import all_parts

# the least share of what stands in two conditionals or loops that is to be alike, where their conditions aren't
ALIKE = 0.5


def beside(block):
    """The parts of a block; what stands under a guard, since it follows an exit, counts as standing beside it."""
    for part in block:
        yield part
        if part.role == "guard":
            yield from beside(part.blocks[0])


def inside(part):
    """The blocks of a part that don't stand beside it."""
    return [] if part.role == "guard" else part.blocks


def text_key(part):
    return part.role == "guard", part.text()


def whole_key(part):
    """The part with all that stands in it."""
    return text_key(part), tuple(tuple(map(whole_key, beside(block))) for block in inside(part))


def form_key(part):
    """What stays where the value changes."""
    return part.role == "guard", part.kind, part.target


def are_alike(part, other):
    """Whether two parts of one form are likely one part that was changed."""
    mine, theirs = ([text_key(it) for block in inside(one) for it in all_parts(block)] for one in (part, other))
    if part.kind == "set" or not (mine and theirs):
        return True
    common = difflib.SequenceMatcher(None, sorted(map(str, mine)), sorted(map(str, theirs)), False)
    return common.ratio() >= ALIKE


def pairs_of_blocks(block, other):
    """Pairs of parts of two blocks: first those that are alike with all that is in them, then by their own text, then by their form."""
    return paired(list(beside(block)), list(beside(other)), [whole_key, text_key, form_key])


def paired(parts, others, keys):
    if not keys or not parts or not others:
        return
    key, *later = keys
    at = of_other = 0
    for begin, begin_of_other, size in difflib.SequenceMatcher(None, [*map(key, parts)], [*map(key, others)], False).get_matching_blocks():
        yield from paired(parts[at:begin], others[of_other:begin_of_other], later)
        at, of_other = begin + size, begin_of_other + size
        for part, other in zip(parts[begin:at], others[begin_of_other:of_other]):
            if later or are_alike(part, other):
                yield from with_inner(part, other)


def with_inner(part, other):
    yield part, other
    for block, other_block in zip(inside(part), inside(other)):
        yield from pairs_of_blocks(block, other_block)


def moved(parts, others):
    """Pairs of what is left over and stands once on each side with this content: it was moved."""
    for key in (whole_key, text_key):
        mine, theirs = by_key(parts, key), by_key(others, key)
        for it, found in mine.items():
            if len(found) == len(theirs.get(it, [])) == 1:
                yield from with_inner(found[0], theirs[it][0])


def by_key(parts, key):
    found = {}
    for part in parts:
        found.setdefault(key(part), []).append(part)
    return found


def align(function, other):
    """The parts of the second function, each with the part of the first that it is guessed to be."""
    found, taken = {}, set()

    def take(pairs):
        for part, its in pairs:
            if part.kind == its.kind and its not in found and part not in taken:
                found[its] = part
                taken.add(part)

    take(pairs_of_blocks(function.parts, other.parts))
    take(moved([it for it in all_parts(function.parts) if it not in taken], [it for it in all_parts(other.parts) if it not in found]))
    return found


def give_new_tags(function, tags, author):
    """Tags of this author for parts that have none."""
    for number, part in enumerate([it for it in all_parts(function.parts) if it not in tags], 1):
        tags[part] = f"{author}.{number}"


def tags_of(base, a, b, merged=None):
    """A table of tags for each of the versions. What both put in at one place, in the same words, is one part."""
    of_base, of_a, of_b = {}, {}, {}
    give_new_tags(base, of_base, 1)
    for version, tags in ((a, of_a), (b, of_b)):
        tags |= {part: of_base[its] for part, its in align(base, version).items()}
    give_new_tags(a, of_a, 2)
    of_b |= {part: of_a[its] for part, its in align(a, b).items() if part not in of_b and of_a[its].startswith("2.") and part.text() == its.text()}
    give_new_tags(b, of_b, 3)
    found = [of_base, of_a, of_b]
    return found if merged is None else [*found, tags_of_merge(merged, [(a, of_a), (b, of_b), (base, of_base)])]


def tags_of_merge(merged, versions):
    """Each part of a merge has the tag of what says the same in a version."""
    tags = {}
    for version, its_tags in versions:
        for part, its in align(version, merged).items():
            if part not in tags and part.text() == its.text() and its_tags[its] not in tags.values():
                tags[part] = its_tags[its]
    give_new_tags(merged, tags, 9)
    return tags
