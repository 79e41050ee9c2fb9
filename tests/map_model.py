"""The map of stale colour, worked out from the words of the rules alone (docs/RULES.md, R57, R60 to R79, R86), for tests/map_cases.py: what a
call has to answer and which map it has to leave. It works place by place: each of the four places of a block has a mask, a long number with
a byte for every block, so that a call is a few operations on such numbers. Then models that get one of the words wrong."""
import struct

CALLS = NEW, FROM_RGBA, FROM_RGBA_RUST, FROM_RGBA_LIMITED, TO_RGBA, MAIN, AUX_V1, AUX_V2, AUX_V2_32, AUX_V2_EXACT = range(10)
STRICT = 5                                      # by so many a strict call comes after the one that clips, in tests/map.c
NAMES = ('new', 'from_rgba', 'from_rgba_rust', 'from_rgba_limited', 'to_rgba', 'main', 'auxiliary v1', 'auxiliary v2', 'auxiliary v2 32',
         'auxiliary v2 exact')
DONE, PLANE_SHORT, RGBA_SHORT, VIEW_NARROW, VIEW_SHORT, OUTPUT_SHORT, LIST_UNEVEN, RECT_UNSOUND = 0, 1, 2, 3, 4, 6, 7, 12
CALL = struct.Struct('<B4IHHQQ3IIH')            # a call and an answer as tests/map.c has them
ANSWER = struct.Struct('<IQQB')
ONE_WHERE_1 = bytes(byte == 1 for byte in range(256))
ONE_WHERE_NOT_2 = bytes(byte != 2 for byte in range(256))
OTHERS = (0, 1), (1, 0), (1, 1)                 # the places of a block that an auxiliary view brings


def up(number, unit):
    return (number + unit - 1) // unit * unit


def number_in(lanes):
    return int.from_bytes(lanes, 'little')


class Picture:
    """Its size, how many blocks it has across and down, and what is lent: the bytes of a plane, and the map with what lies past it."""

    def __init__(self, width, height, past):
        self.width, self.height = width, height
        self.across, self.down = up(width, 16) // 2, up(height, 16) // 2
        self.blocks, self.plane = self.across * self.down, 4 * self.across * self.down
        self.past, self.before = past, b''

    def box(self, top, bottom, left, right):
        """The number with a 1 in the byte of each of these blocks."""
        top, bottom, left, right = max(top, 0), min(bottom, self.down), max(left, 0), min(right, self.across)
        if top >= bottom or left >= right:
            return 0
        row = bytes(left) + b'\1' * (right - left) + bytes(self.across - right)
        return number_in(bytes(top * self.across) + row * (bottom - top))

    def grid(self, rows, columns):
        """The same where a block's row and its column are both among those that have a true value."""
        row, none = bytes(columns), bytes(self.across)
        return number_in(b''.join([row if one else none for one in rows]))


class Call:
    """Which call, in which form, and what it is lent."""

    def __init__(self, which, counts, view=(0, 0, 0, 0), planes=(0, 0, 0), rgba=0, numbers=(), strict=False):
        self.which, self.counts, self.planes, self.rgba, self.numbers, self.strict = which, counts, planes, rgba, numbers, strict
        self.width, self.height, self.luma_stride, self.chroma_stride = view

    def given(self):
        return CALL.pack(self.which + STRICT * self.strict, *self.counts, self.width, self.height, self.luma_stride, self.chroma_stride,
                         *self.planes, self.rgba, len(self.numbers)) + struct.pack(f'<{len(self.numbers)}H', *self.numbers)

    def __str__(self):
        return (f'{NAMES[self.which]}{" strict" * self.strict}: lent {self.counts}, view {self.width}x{self.height} of strides '
                f'{self.luma_stride} and {self.chroma_stride} and planes {self.planes}, RGBA {self.rgba}, list {self.numbers}')


class Model:
    """The words of the rules, one method for each that a wrong model gets wrong."""

    def area(self, picture, left, top, right, bottom):
        """R60: left and top rounded down to even, right and bottom, at most the width and the height, rounded up to even."""
        return left - left % 2, top - top % 2, up(min(right, picture.width), 2), up(min(bottom, picture.height), 2)

    def areas(self, picture, call):
        """R62: a list takes what some rectangle of it takes."""
        return [self.area(picture, *call.numbers[k:k + 4]) for k in range(0, len(call.numbers), 4)]

    def inside(self, picture, areas, row, column):
        """The blocks whose place (row, column) lies in one of the areas."""
        found = 0
        for left, top, right, bottom in areas:
            found |= picture.box((top - row + 1) // 2, (bottom - row + 1) // 2, (left - column + 1) // 2, (right - column + 1) // 2)
        return found

    def wide(self, picture, call):
        """R67, R72, R73: W."""
        return {AUX_V2: up(call.width, 16), AUX_V2_32: up(picture.width, 32), AUX_V2_EXACT: picture.width}[call.which]

    def v1_rows(self, picture, call):
        """R65: an odd row has U in luma row n and V in luma row n + 8."""
        return [row - row % 16 + row % 16 // 2 + 8 < call.height for row in range(1, 2 * picture.down, 2)]

    def has_v1(self, picture, call, row, column):
        """R65, R66: the blocks of whose place (row, column) the view has U and V."""
        chroma_width, chroma_height = (call.width + 1) // 2, (call.height + 1) // 2
        if row:
            return picture.grid(self.v1_rows(picture, call), [2 * k + column < call.width for k in range(picture.across)])
        return picture.box(0, chroma_height, 0, chroma_width)

    def odd_columns(self, picture, call, wide):
        """R68, R70: of an odd column U stands at column/2 of luma, and V at W/2 + column/2."""
        return [wide // 2 + column // 2 < call.width for column in range(1, 2 * picture.across, 2)]

    def even_columns(self, picture, call, wide):
        """R69, R70: of an even column U stands at column/4 of a chroma plane, and V at W/4 + column/4."""
        return [wide // 4 + column // 4 < (call.width + 1) // 2 for column in range(0, 2 * picture.across, 2)]

    def has_v2(self, picture, call, row, column):
        wide, blocks = self.wide(picture, call), range(picture.down)
        if column:
            return picture.grid([2 * k + row < call.height for k in blocks], self.odd_columns(picture, call, wide))
        return picture.grid([k < (call.height + 1) // 2 for k in blocks], self.even_columns(picture, call, wide))

    def brought(self, picture, call, places):
        """The blocks of which the view brings a place, for each of the places."""
        areas, has, found = self.areas(picture, call), self.has_v1 if call.which == AUX_V1 else self.has_v2, []
        for place in places:
            inside = self.inside(picture, areas, *place)
            found.append(inside and inside & has(picture, call, *place))
        return found

    def main(self, picture, call, before):
        """R63, R75: 1 where it takes any chroma of the block."""
        areas, found = self.areas(picture, call), 0
        for row in (0, 1):
            for column in (0, 1):
                has = picture.box(0, (call.height - row + 1) // 2, 0, (call.width - column + 1) // 2)
                found |= self.inside(picture, areas, row, column) & has
        return self.set_to_1(picture, before, found)

    def set_to_1(self, picture, before, found):
        return (number_in(before) & ~(found * 255) | found).to_bytes(picture.blocks, 'little')

    def auxiliary(self, picture, call, before):
        """R76: 1 becomes 2 where it takes all three of the block's other places."""
        first, second, third = self.brought(picture, call, OTHERS)
        return self.turned(picture, before, self.ready(before), first & second & third)

    def ready(self, before):
        """A 1 in the byte of each block that an auxiliary view may complete."""
        return number_in(before.translate(ONE_WHERE_1))

    def turned(self, picture, before, ready, complete):
        return (number_in(before) + (ready & complete)).to_bytes(picture.blocks, 'little')

    def clipped(self, picture, call):
        left, top, right, bottom = call.numbers
        right, bottom = min(right, picture.width), min(bottom, picture.height)
        return (left, top, right, bottom) if left < right and top < bottom else (0, 0, 0, 0)

    def stale(self, picture, call, before):
        """R57: the pixels of the clipped rectangle in blocks that are not 2, row by row: those of even columns and those of odd ones."""
        left, top, right, bottom = self.clipped(picture, call)
        across, marked, count = picture.across, self.not_complete(before), 0
        for row in range(top, bottom):
            line = marked[row // 2 * across:(row // 2 + 1) * across]
            count += sum(line[(left + 1) // 2:(right + 1) // 2]) + sum(line[left // 2:right // 2])
        return count

    def not_complete(self, before):
        return before.translate(ONE_WHERE_NOT_2)

    def short(self, picture, call):
        """1: a plane is too short, or the map."""
        return min(call.counts[:3]) < picture.plane or call.counts[3] < picture.blocks

    def faulty(self, picture, left, top, right, bottom):
        """R86: "left not below right, top not below bottom, right above width or bottom above height"."""
        return not left < right or not top < bottom or right > picture.width or bottom > picture.height

    def unsound(self, picture, call):
        """12: "any rectangle"."""
        return any(self.faulty(picture, *call.numbers[k:k + 4]) for k in range(0, len(call.numbers) // 4 * 4, 4))

    def refusals(self, picture, call):
        """The numbers of the reasons for a refusal, in their order."""
        if call.which in (FROM_RGBA, FROM_RGBA_RUST, FROM_RGBA_LIMITED):
            yield RGBA_SHORT, call.rgba < 4 * picture.width * picture.height
        yield PLANE_SHORT, self.short(picture, call)
        if call.which == TO_RGBA:
            left, top, right, bottom = self.clipped(picture, call)
            yield OUTPUT_SHORT, call.rgba < 4 * (right - left) * (bottom - top)
        if call.which >= MAIN:
            chroma_width, chroma_height = (call.width + 1) // 2, (call.height + 1) // 2
            yield LIST_UNEVEN, len(call.numbers) % 4
            yield RECT_UNSOUND, call.strict and self.unsound(picture, call)
            yield VIEW_NARROW, call.luma_stride < call.width or call.chroma_stride < chroma_width
            yield VIEW_SHORT, call.planes[0] < call.luma_stride * call.height or min(call.planes[1:]) < call.chroma_stride * chroma_height

    def number(self, picture, call):
        for number, holds in self.refusals(picture, call):
            if holds:
                return number
        return DONE

    made = {NEW: b'\0', FROM_RGBA: b'\2', FROM_RGBA_RUST: b'\2', FROM_RGBA_LIMITED: b'\2'}       # R77

    def after(self, picture, call, before):
        """The map after a call that is done."""
        if call.which in self.made:
            return self.made[call.which] * picture.blocks
        if call.which == TO_RGBA:
            return before
        return self.main(picture, call, before) if call.which == MAIN else self.auxiliary(picture, call, before)

    def refused(self, picture, call, before):
        """R78: a refused call leaves the map."""
        return before

    def answers(self, sequence):
        """All that the library has to answer: of each call a head, and every byte of the map and past it."""
        picture, said = sequence.picture, []
        now = picture.before
        for call in sequence.calls:
            number, count, stale = self.number(picture, call), 0, 0
            if number:
                now = self.refused(picture, call, now)
            else:
                if call.which == TO_RGBA:
                    left, top, right, bottom = self.clipped(picture, call)
                    count, stale = 4 * (right - left) * (bottom - top), self.stale(picture, call, now)
                now = self.after(picture, call, now)
            said += ANSWER.pack(number, count, stale, 1), now, picture.past
        return b''.join(said)


# --- Wrong models: each has to differ from the library somewhere.

class MainWantsAllFour(Model):
    def main(self, picture, call, before):
        areas, found = self.areas(picture, call), picture.box(0, call.height // 2, 0, call.width // 2)
        return self.set_to_1(picture, before, self.inside(picture, areas, 0, 0) & found)


class MainLeaves2(Model):
    def set_to_1(self, picture, before, found):
        return bytes(old if old == 2 else new for old, new in zip(before, super().set_to_1(picture, before, found)))


class MainLeavesWhatIsAbove2(Model):
    def set_to_1(self, picture, before, found):
        return bytes(old if old > 2 else new for old, new in zip(before, super().set_to_1(picture, before, found)))


class MainIgnoresTheView(Model):
    def main(self, picture, call, before):
        return self.set_to_1(picture, before, self.inside(picture, self.areas(picture, call), 0, 0))


class AuxiliaryCompletes0(Model):
    def ready(self, before):
        return number_in(before.translate(bytes(2 if byte == 0 else byte == 1 for byte in range(256))))

    def turned(self, picture, before, ready, complete):
        return (number_in(before) + (ready & complete * 3)).to_bytes(picture.blocks, 'little')


class AuxiliaryCompletesAnything(Model):
    def turned(self, picture, before, ready, complete):
        return (number_in(before) & ~(complete * 255) | complete * 2).to_bytes(picture.blocks, 'little')


class AuxiliaryWantsTwoOfThree(Model):
    def auxiliary(self, picture, call, before):
        first, second, third = self.brought(picture, call, OTHERS)
        return self.turned(picture, before, self.ready(before), first & second | first & third | second & third)


class AuxiliaryWantsTheFirstPlaceAlone(Model):
    def auxiliary(self, picture, call, before):
        return self.turned(picture, before, self.ready(before), self.brought(picture, call, OTHERS)[0])


class AuxiliaryViewsAddUp(Model):
    """What auxiliary views have brought is added up, also over a main view."""

    def answers(self, sequence):
        self.had = [0, 0, 0]
        return super().answers(sequence)

    def auxiliary(self, picture, call, before):
        self.had = [old | new for old, new in zip(self.had, self.brought(picture, call, OTHERS))]
        return self.turned(picture, before, self.ready(before), self.had[0] & self.had[1] & self.had[2])


class WithoutV(Model):
    """A sample is there when U of it is, R70 or not."""

    def v1_rows(self, picture, call):
        return [row - row % 16 + row % 16 // 2 < call.height for row in range(1, 2 * picture.down, 2)]

    def wide(self, picture, call):
        return 0


class V1RowsInOrder(Model):
    def v1_rows(self, picture, call):
        return [row // 2 + 8 < call.height for row in range(1, 2 * picture.down, 2)]


class V1WithoutTheRowsOfV(Model):
    def v1_rows(self, picture, call):
        return [row - row % 16 + row % 16 // 2 < call.height for row in range(1, 2 * picture.down, 2)]


class LeftRoundedUp(Model):
    def area(self, picture, left, top, right, bottom):
        _, top, right, bottom = super().area(picture, left, top, right, bottom)
        return up(left, 2), top, right, bottom


class BottomRoundedDown(Model):
    def area(self, picture, left, top, right, bottom):
        left, top, right, low = super().area(picture, left, top, right, bottom)
        return left, top, right, low if bottom >= picture.height else low - low % 4 // 2 * (bottom % 2)


class IntoThePadding(Model):
    def area(self, picture, left, top, right, bottom):
        return left - left % 2, top - top % 2, up(right, 2), up(bottom, 2)


class EmptyTakesNothing(Model):
    def area(self, picture, left, top, right, bottom):
        return super().area(picture, left, top, right, bottom) if left < right and top < bottom else (0, 0, 0, 0)


class FirstRectangleAlone(Model):
    def areas(self, picture, call):
        return super().areas(picture, call)[:1]


class WOfThePicture(Model):
    """By the 16 rule too."""

    def wide(self, picture, call):
        return up(picture.width, 16) if call.which == AUX_V2 else super().wide(picture, call)


class WOfTheView(Model):
    """By the 32 rule too."""

    def wide(self, picture, call):
        return up(call.width, 32) if call.which == AUX_V2_32 else super().wide(picture, call)


class ExactRounds(Model):
    def wide(self, picture, call):
        return up(picture.width, 4) if call.which == AUX_V2_EXACT else super().wide(picture, call)


class ChromaOfAnOddWidthRoundedDown(Model):
    def even_columns(self, picture, call, wide):
        return [wide // 4 + column // 4 < call.width // 2 for column in range(0, 2 * picture.across, 2)]


class FreshIsComplete(Model):
    made = {**Model.made, NEW: b'\2'}


class RgbaIsStale(Model):
    made = {**Model.made, FROM_RGBA_RUST: b'\1'}


class LimitedIsStale(Model):
    made = {**Model.made, FROM_RGBA_LIMITED: b'\1'}


class StaleBlocks(Model):
    def stale(self, picture, call, before):
        left, top, right, bottom = self.clipped(picture, call)
        return sum(before[row * picture.across + column] != 2 for row in range(top // 2, (bottom + 1) // 2)
                   for column in range(left // 2, (right + 1) // 2))


class StaleIs1(Model):
    def not_complete(self, before):
        return before.translate(ONE_WHERE_1)


class AboveTwoIsComplete(Model):
    def not_complete(self, before):
        return before.translate(bytes(byte < 2 for byte in range(256)))


class MapMayBeShort(Model):
    def short(self, picture, call):
        return min(call.counts[:3]) < picture.plane


class MapAsLongAsAPlane(Model):
    def short(self, picture, call):
        return min(call.counts) < picture.plane


class OtherOrder(Model):
    """The last reason's number comes first."""

    def number(self, picture, call):
        found = [number for number, holds in self.refusals(picture, call) if holds]
        return found[-1] if found else DONE


class MapAfterTheList(Model):
    """1 of a short map comes after 7."""

    def number(self, picture, call):
        number = super().number(picture, call)
        map_alone = number == PLANE_SHORT and min(call.counts[:3]) >= picture.plane
        return LIST_UNEVEN if map_alone and call.which >= MAIN and len(call.numbers) % 4 else number


class RefusalsMark(Model):
    """A main view whose plane is short marks its blocks all the same."""

    def refused(self, picture, call, before):
        return self.main(picture, call, before) if call.which == MAIN and len(call.numbers) % 4 == 0 else before


class ForgetsLeft(Model):
    def faulty(self, picture, left, top, right, bottom):
        return not top < bottom or right > picture.width or bottom > picture.height


class ForgetsTop(Model):
    def faulty(self, picture, left, top, right, bottom):
        return not left < right or right > picture.width or bottom > picture.height


class ForgetsRight(Model):
    def faulty(self, picture, left, top, right, bottom):
        return not left < right or not top < bottom or bottom > picture.height


class ForgetsBottom(Model):
    def faulty(self, picture, left, top, right, bottom):
        return not left < right or not top < bottom or right > picture.width


class LeftMayBeRight(Model):
    def faulty(self, picture, left, top, right, bottom):
        return left > right or not top < bottom or right > picture.width or bottom > picture.height


class TopMayBeBottom(Model):
    def faulty(self, picture, left, top, right, bottom):
        return not left < right or top > bottom or right > picture.width or bottom > picture.height


class RightAtTheWidthIsUnsound(Model):
    def faulty(self, picture, left, top, right, bottom):
        return super().faulty(picture, left, top, right, bottom) or right == picture.width


class BottomAtTheHeightIsUnsound(Model):
    def faulty(self, picture, left, top, right, bottom):
        return super().faulty(picture, left, top, right, bottom) or bottom == picture.height


class SoundInThePadding(Model):
    def faulty(self, picture, left, top, right, bottom):
        return not left < right or not top < bottom or right > 2 * picture.across or bottom > 2 * picture.down


class SoundInTheView(Model):
    def unsound(self, picture, call):
        return super().unsound(call, call)


class FirstRectangleTestedAlone(Model):
    def unsound(self, picture, call):
        return len(call.numbers) >= 4 and self.faulty(picture, *call.numbers[:4])


class EmptyListIsUnsound(Model):
    def unsound(self, picture, call):
        return not call.numbers or super().unsound(picture, call)


class ClippingIsStrict(Model):
    def refusals(self, picture, call):
        for number, holds in super().refusals(picture, call):
            yield number, self.unsound(picture, call) if number == RECT_UNSOUND else holds


class UnsoundAfterTheView(Model):
    """12 comes after 3 and 4."""

    def refusals(self, picture, call):
        return sorted(super().refusals(picture, call), key=lambda one: one[0] == RECT_UNSOUND)


class UnsoundBeforeTheList(Model):
    """12 comes before 7, and after 1."""

    def refusals(self, picture, call):
        return sorted(super().refusals(picture, call), key=lambda one: (RGBA_SHORT, PLANE_SHORT, RECT_UNSOUND).index(one[0])
                      if one[0] in (RGBA_SHORT, PLANE_SHORT, RECT_UNSOUND) else 3)


class UnsoundFirst(Model):
    """12 comes before 1."""

    def refusals(self, picture, call):
        return sorted(super().refusals(picture, call), key=lambda one: one[0] != RECT_UNSOUND)


class StrictServesTheSound(Model):
    """The sound rectangles of a list that is refused are served all the same."""

    def refused(self, picture, call, before):
        if self.number(picture, call) != RECT_UNSOUND:
            return before
        sound = [call.numbers[k:k + 4] for k in range(0, len(call.numbers), 4) if not self.faulty(picture, *call.numbers[k:k + 4])]
        served = Call(call.which, call.counts, (call.width, call.height, call.luma_stride, call.chroma_stride), call.planes,
                      numbers=[edge for rect in sound for edge in rect])
        return self.after(picture, served, before)


WRONG = [one for one in globals().values() if isinstance(one, type) and issubclass(one, Model) and one is not Model]
