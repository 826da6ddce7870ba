"""The delivered figure, worked out from the rules alone: a case in, and out comes its report or the number of its first defect.

docs/RULES.md states the rules and numbers the steps; figures.py compares with the tests. This shares nothing with the engine:
fractions are exact, and each first millisecond is found by trying one after the other. Times are ms, frequencies and dips
mHz, powers W; whatever lies between a power and the value of a window is in hundredths of a W. A side is 1 for a low
disturbance and -1 for a high one, and turns dips, powers and targets. A rounding is half_up, or unrounded for the exact
delivery, which is rounded nowhere.
"""
from fractions import Fraction
from math import ceil, floor
from typing import Callable, NamedTuple, Optional

NOMINAL, LOWEST_INSIDE, HIGHEST_INSIDE = 50_000, 49_850, 50_150
LATEST, GREATEST_POWER, GREATEST_AMOUNT = 1_200_000, 1_000_000_000, 1_000_000_000

# By the number in a service's code: start, end and multiplier of the first and the second window, then the widest gap.
GROUPS = {
    "6": ((0, 6_000, 2), (6_000, 60_000, 2), 50),
    "60": ((6_000, 60_000, 2), (60_000, 300_000, 2), 4_000),
    "5": ((60_000, 300_000, 2), (300_000, 900_000, 1), 4_000),
}


class Sample(NamedTuple):
    time: int
    frequency: int
    power: int


class Target(NamedTuple):
    time: int
    power: int


class Settings(NamedTuple):
    rate: int
    reference_dip: int
    dead_band: int
    switch_dip: int
    base_begin: int
    base_end: int


class Rule(NamedTuple):
    trigger: Optional[int]
    weight: Callable  # of dip and offset


class Case(NamedTuple):
    samples: list
    settings: Settings
    rule: Rule
    targets: list
    count: int
    service: str
    enabled: int


class Report(NamedTuple):
    disturbance: int
    recovery: Optional[int]
    first: int
    second: Optional[int]
    delivery: int
    verdict: str


def half_up(value):
    return floor(value + Fraction(1, 2))


def unrounded(value):
    return value


def straight(before, after, time):
    """At a time, the straight line between two pairs of time and value."""
    return before[1] + Fraction((after[1] - before[1]) * (time - before[0])) / (after[0] - before[0])


# The two response rules.


def variable(settings):
    def weight(dip, offset):
        if dip <= settings.dead_band:
            return Fraction(1)
        ramp_dip = min(150 + Fraction(offset * settings.rate, 1_000), settings.reference_dip)
        return min(max((ramp_dip - settings.dead_band) / (dip - settings.dead_band), Fraction(1)), Fraction(3))

    return Rule(None, weight)


def switching(settings):
    return Rule(settings.switch_dip, lambda dip, offset: Fraction(1))


# Disturbance, recovery and trigger time.


def milliseconds(samples, begin):
    """Every whole millisecond from begin on; the line's frequency there times the ms between its two samples; these ms."""
    for a, b in zip(samples, samples[1:]):
        span = b.time - a.time
        for ms in range(max(begin, a.time), b.time + 1):
            yield ms, a.frequency * span + (b.frequency - a.frequency) * (ms - a.time), span


def is_inside(frequency, span=1):
    return LOWEST_INSIDE * span <= frequency <= HIGHEST_INSIDE * span


def disturbance(samples):
    """The disturbance time and its side; None without a disturbance."""
    for a, b in zip(samples, samples[1:]):
        if is_inside(a.frequency) and not is_inside(b.frequency):
            time = next(ms for ms, line, span in milliseconds([a, b], a.time + 1) if not is_inside(line, span))
            return time, 1 if b.frequency < NOMINAL else -1
    return None


def recovery_time(samples, time, side):
    return next((ms for ms, line, span in milliseconds(samples, time + 1) if side * (NOMINAL * span - line) < 0), None)


def trigger_time(samples, time, side, recovery, trigger):
    for ms, line, span in milliseconds(samples, time):
        if ms == recovery:
            return None
        if side * (NOMINAL * span - line) >= trigger * span:
            return ms
    return None


def shift(case, time, side, recovery):
    """Step 3: how many ms later the windows begin; None without the trigger time that the rule needs."""
    trigger = case.rule.trigger
    if trigger is None:
        return 0
    reached = trigger_time(case.samples, time, side, recovery, trigger)
    return None if reached is None else reached - time - ceil(Fraction((trigger - 150) * 1_000, case.settings.rate))


# The base.


def base_samples(case, time):
    return [s for s in case.samples if time - case.settings.base_begin <= s.time <= time - case.settings.base_end]


def trajectory(targets, side, time, rounding):
    """Where the targets stand at a time between the first and the last of them."""
    turned = [(target.time, side * 100 * target.power) for target in targets]
    for before, after in zip(turned, turned[1:]):
        if before[0] <= time <= after[0]:
            return rounding(straight(before, after, time))
    return turned[0][1]


def base(case, time, side, rounding):
    """Step 1: the mean over the base samples, each raised as the targets rise from it to the disturbance time."""
    targets = case.targets[: case.count]
    pushes = []
    for s in base_samples(case, time):
        raised = 0
        if targets:
            raised = max(0, trajectory(targets, side, time, rounding) - trajectory(targets, side, s.time, rounding))
        pushes.append(side * 100 * s.power + raised)
    return rounding(Fraction(sum(pushes)) / len(pushes))


# The windows.


def windows(case, begin, recovery):
    """Step 4: start, end and multiplier of each of the two windows, cut at recovery."""
    for start, end, multiplier in GROUPS[case.service[1:]][:2]:
        yield begin + start, begin + end if recovery is None else min(begin + end, recovery), multiplier


def is_empty(window):
    return window[1] <= window[0]


def is_outside(samples, window):
    return window[0] < samples[0].time or samples[-1].time < window[1]


def has_wide_gap(case, window):
    widest = GROUPS[case.service[1:]][2]
    return any(
        b.time - a.time > widest and max(a.time, window[0]) < min(b.time, window[1])
        for a, b in zip(case.samples, case.samples[1:])
    )


def compensated_responses(case, time, side, recovery, rounding):
    """Step 2: time and compensated response of each sample before recovery."""
    from_base = base(case, time, side, rounding)
    responses = []
    for s in case.samples:
        if recovery is None or s.time < recovery:
            weight = 1 if s.time < time else case.rule.weight(side * (NOMINAL - s.frequency), s.time - time)
            responses.append((s.time, rounding((side * 100 * s.power - from_base) * weight)))
    return responses


def response_at(responses, time, rounding):
    """The compensated response at a time: on the line between two samples, or else level from the last one on."""
    for before, after in zip(responses, responses[1:]):
        if before[0] < time < after[0]:
            return rounding(straight(before, after, time))
    return [value for at, value in responses if at <= time][-1]


def window_value(responses, window, rounding):
    """Step 5: the multiplier times the trapezoid average, in W."""
    start, end, multiplier = window
    course = [(start, response_at(responses, start, rounding))]
    course += [response for response in responses if start < response[0] < end]
    course += [(end, response_at(responses, end, rounding))]
    area = sum(Fraction(a[1] + b[1]) / 2 * (b[0] - a[0]) for a, b in zip(course, course[1:]))
    return rounding(multiplier * area / (end - start) / 100)


# The answer.


def is_timeline(targets, count):
    counted = targets[:count]
    return (
        count <= len(targets)
        and all(0 <= t.time <= LATEST and abs(t.power) <= GREATEST_POWER for t in counted)
        and all(a.time < b.time for a, b in zip(counted, counted[1:]))
    )


def early_defect(case, time, side):
    """The first of the defects 8 to 12, or None."""
    if not 0 <= case.enabled <= GREATEST_AMOUNT:
        return 8
    if case.service[0] != ("R" if side == 1 else "L"):
        return 9
    if not is_timeline(case.targets, case.count):
        return 10
    if not base_samples(case, time):
        return 11
    needed = [time] + [s.time for s in base_samples(case, time)]
    if case.count >= 1 and not all(case.targets[0].time <= t <= case.targets[case.count - 1].time for t in needed):
        return 12
    return None


def figure(case):
    """The report and the exact delivery, or the number of the first defect and None."""
    disturbed = disturbance(case.samples)
    if disturbed is None:
        return 7, None
    time, side = disturbed
    early = early_defect(case, time, side)
    if early is not None:
        return early, None
    recovery = recovery_time(case.samples, time, side)
    shifted = shift(case, time, side, recovery)
    if shifted is None:
        return 13, None
    first, second = windows(case, time + shifted, recovery)
    if is_empty(first):
        return 14, None
    counted = [window for window in (first, second) if not is_empty(window)]
    if any(is_outside(case.samples, window) for window in counted):
        return 15, None
    if any(has_wide_gap(case, window) for window in counted):
        return 16, None
    values = window_values(case, time, side, recovery, counted, half_up)
    return report(case, time, recovery, values), min(window_values(case, time, side, recovery, counted, unrounded))


def window_values(case, time, side, recovery, counted, rounding):
    responses = compensated_responses(case, time, side, recovery, rounding)
    return [window_value(responses, window, rounding) for window in counted]


def report(case, time, recovery, values):
    """Step 6: the lesser value, or the only one, and how it stands to the enabled amount."""
    delivery = min(values)
    verdict = "Met" if delivery > case.enabled else "Short" if delivery < case.enabled else "Level"
    return Report(time, recovery, values[0], values[1] if len(values) == 2 else None, delivery, verdict)
