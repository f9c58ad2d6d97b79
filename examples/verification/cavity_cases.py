"""The expected values of the cases with vapour cavities."""
import math

from case_data import AREA_ROUNDING, GRAVITY, ON_A_STEP, ROUNDING, SHUT, TIME_ROUNDING, Case

VAPOUR = -10.1  # m above the elevation: the vapour head of a case that gives none


def cavity_by_waves(growth, change, period):
    """The greatest volume of a cavity, how long it lasts and its last growth; its growth falls with each period."""
    volume, greatest, time = 0.0, 0.0, 0.0
    while volume + growth * period > 0:
        volume, time = volume + growth * period, time + period
        greatest = max(greatest, volume)
        growth -= change
    return greatest, time + volume / -growth, growth


def column_separation():
    for name in ["column_separation", "column_separation_coarse", "column_separation_middle_weight"]:
        case = Case(name)
        pipe, start = case.pipe("P"), case.head("R")
        weight = float(case.fields("weight")[1])
        vapour = case.number("junction", "V", 2) + VAPOUR
        pull, period = start - vapour, 2 * pipe.travel  # head that brings the column back
        tolerance = pipe.rounding(2 * pipe.joukowsky)
        opened = SHUT + period
        case.expect(f"watch V {case.at(SHUT)} HEAD", "head as the main is shut, m", "H0 + a V/g",
                    start + pipe.joukowsky, tolerance, ROUNDING)
        case.expect(f"watch V {case.at(opened)} HEAD", "head as the cavity opens, m", "z + hv", vapour, 1e-6, "none")
        case.expect(f"time watch V HEAD below {vapour + 0.001:.3f} from {case.at(SHUT)}", "the cavity opens, s",
                    "t0 + 2L/a", opened, TIME_ROUNDING, ON_A_STEP)
        first = pipe.flow - pull / pipe.impedance
        case.expect(f"watch V {case.at(opened)} GROWTH", "first growth of the cavity, m3/s", "Q - H/b", first, 2e-6,
                    AREA_ROUNDING)
        greatest, lasted, growth = cavity_by_waves(first, 2 * pull / pipe.impedance, period)
        collapse = opened + lasted
        late = (1 - weight) * case.step * (pull / pipe.impedance * 2)
        reason = AREA_ROUNDING if weight == 1 else f"the mean of old and new growth; {AREA_ROUNDING}"
        case.expect("cavity V VOLUME", "greatest volume of the cavity, m3", "sum of (Q - (2i - 1) H/b) 2L/a",
                    greatest, late + 1e-5, reason)
        steps = 5
        case.expect(f"watch V {case.at(opened) + steps - 1} VOLUME", f"volume {steps} steps after it opens, m3",
                    "(Q - H/b)(5 - (1 - w)) dt", first * (steps - (1 - weight)) * case.step, 1e-7, AREA_ROUNDING)
        line = f"time watch V HEAD above {vapour + 1:.1f} from {case.at(opened)}"
        case.expect(line, "the cavity collapses, rigid column, s", "t0 + 2L/a + 2 L V/(g H)",
                    opened + 2 * pipe.length * pipe.velocity / (GRAVITY * pull), pipe.travel + case.step,
                    "the flow changes in steps: half of 2L/a, and one time step")
        case.expect(line, "the cavity collapses, by the steps of the flow, s", "t0 + 2L/a + time of volume 0",
                    collapse, case.step, "one time step")
        if weight == 1:
            # each step counts whole: the collapse is seen where its time is used up, counted from one step before
            step = case.at(opened) - 1 + math.ceil((collapse - opened) / case.step)
            case.expect(f"watch V {step} HEAD", "head at the step of the collapse, m", "z + hv - b g",
                        vapour - pipe.impedance * growth, 2 * tolerance, ROUNDING)
        peak_line = f"greatest watch V HEAD {case.at(opened)} {case.at(math.floor(collapse) + 1.0) - 1}"
        case.expect(peak_line, "head at the collapse, rigid column, m", "z + hv + a V/g", vapour + pipe.joukowsky,
                    pull, "the flow changes in steps of 2 H/b: half of one")
        case.expect(peak_line, "head at the collapse, by the steps of the flow, m", "z + hv - b g",
                    vapour - pipe.impedance * growth, 2 * tolerance, ROUNDING)
        case.expect("envelope V MAX", "peak after the collapse, m", "z + hv - b g + 2 H",
                    vapour - pipe.impedance * growth + 2 * pull, 2 * tolerance, ROUNDING)
        case.expect("count cavity", "places with a cavity", "1", 1, 1e-6, "none")


def meeting_waves():
    case = Case("meeting_waves")
    pipe = case.pipe("P")
    (_, high), (_, low) = case.table("heads", "FALL")
    fall, vapour = high - low, VAPOUR
    lack = vapour - (high - 2 * fall)  # by which the vapour head is above the head without a cavity
    middle = case.reaches("P") // 2
    opened = SHUT + pipe.travel / 2
    tolerance = pipe.rounding(2 * fall)
    reason = AREA_ROUNDING
    line = f"probe P {middle}"
    case.expect(f"{line} {case.at(opened)} HEAD", "head where the waves meet, m", "hv", vapour, 1e-6, "none")
    case.expect(f"{line} {case.at(opened)} QU", "flow before the cavity, m3/s", "-(hv - (H0 - 2 F))/b",
                -lack / pipe.impedance, 1e-6, reason)
    case.expect(f"{line} {case.at(opened)} QD", "flow behind the cavity, m3/s", "(hv - (H0 - 2 F))/b",
                lack / pipe.impedance, 1e-6, reason)
    back = opened + pipe.travel
    first = 2 * lack / pipe.impedance
    second = first - 4 * (low - vapour) / pipe.impedance
    case.expect(f"cavity P {middle} VOLUME", "greatest volume, m3", "2 (hv - (H0 - 2 F))/b L/a", first * pipe.travel,
                1e-6, reason)
    case.expect(f"time {line} HEAD above {vapour + 1:.1f} from {case.at(opened)}", "the cavity collapses, s",
                "t1 + L/a + V/(4 (H1 - hv)/b - g)", back + first * pipe.travel / -second, case.step, "one time step")
    collapsed = vapour - pipe.impedance * second / 2
    case.expect(f"greatest {line} HEAD {case.at(opened)} {case.at(back + pipe.travel) - 1}",
                "head at the collapse, m", "hv + b (4 (H1 - hv)/b - g)/2", collapsed, tolerance, ROUNDING)
    case.expect(f"envelope P {middle} MAX", "peak after the collapse, m", "that head + 2 (H1 - hv)",
                collapsed + 2 * (low - vapour), tolerance, ROUNDING)
    case.expect(f"probe P {middle // 2} {case.at(opened + pipe.travel / 4)} HEAD",
                "head on the way to the reservoir, m", "hv", vapour, tolerance, ROUNDING)
    case.expect(f"probe P {middle // 2} {case.at(opened + pipe.travel / 4)} QU", "flow there, m3/s",
                "-(hv - (H0 - 2 F))/b", -lack / pipe.impedance, 1e-6, reason)


def cavity_at_valve():
    case = Case("cavity_at_valve")
    pipe = case.pipe("P")
    (_, high), (_, low) = case.table("heads", "FALL")
    full_flow, loss, outlet, opening = map(float, case.fields("discharge", "V")[3:7])
    area = (opening * full_flow) ** 2 / loss  # (n q0)^2/h0
    vapour, last = VAPOUR, case.reaches("P")
    opened = SHUT + pipe.travel
    back = opened + 2 * pipe.travel
    inflow = -math.sqrt(area * (outlet - vapour))  # through the valve, out of the main
    away = (vapour - (high - 2 * (high - low))) / pipe.impedance
    growth = inflow + away
    reason = AREA_ROUNDING
    case.expect(f"watch V {case.at(opened)} HEAD", "head as the cavity opens, m", "hv", vapour, 1e-6, "none")
    case.expect(f"watch V {case.at(opened)} GROWTH", "growth of the cavity, m3/s",
                "(hv - (H0 - 2 F))/b - n q0 sqrt((Ho - hv)/h0)", growth, 1e-6, reason)
    case.expect(f"probe P {last} {case.at(opened)} QU", "flow in the main at the valve, m3/s", "-(hv - (H0 - 2 F))/b",
                -away, 1e-6, reason)
    case.expect("cavity V VOLUME", "greatest volume, m3", "g 2L/a", growth * 2 * pipe.travel, 2e-6, reason)
    arrival = high - 2 * (high - low) + 2 * (low - vapour)
    shrink = (arrival - vapour) / pipe.impedance - inflow
    case.expect(f"time watch V HEAD above {vapour + 0.1:.1f} from {case.at(opened)}", "the cavity closes, s",
                "t1 + 2L/a + g (2L/a)/((c - hv)/b + n q0 sqrt((Ho - hv)/h0))",
                back + growth * 2 * pipe.travel / shrink, case.step, "one time step")
    # behind it the valve lets water flow back: (q/(n q0))^2 h0 = Ho - c - b q
    half = pipe.impedance * area / 2
    reverse = -half + math.sqrt(half ** 2 + area * (outlet - arrival))
    case.expect(f"watch V {case.at(back + 1.8 * pipe.travel)} HEAD", "head after it closes, m",
                "c + b q, h0 (q/(n q0))^2 + b q = Ho - c", arrival + pipe.impedance * reverse, pipe.rounding(outlet),
                ROUNDING)


def crest_cavity():
    for name in ["crest_cavity", "crest_cavity_coarse"]:
        case = Case(name)
        pipe, start = case.pipe("UP"), case.head("B")
        vapour = case.number("junction", "CREST", 2) + VAPOUR
        fall = pipe.impedance * pipe.flow
        lack = vapour - (start - fall)
        opened = SHUT + case.pipe("P1").travel + pipe.travel
        period = 2 * (case.pipe("DOWN").travel + case.pipe("P2").travel)
        tolerance = pipe.rounding(fall)
        growth = 2 * lack / pipe.impedance
        shrink = 2 * (start - vapour) / pipe.impedance - growth
        reason = AREA_ROUNDING
        case.expect("envelope CREST MIN", "least head at the crest, m", "z + hv", vapour, 1e-6, "none")
        case.expect(f"time watch CREST HEAD below {vapour + 0.001:.3f} from 0", "the cavity opens, s", "t0 + x/a",
                    opened, TIME_ROUNDING, ON_A_STEP)
        case.expect("count cavity", "places with a cavity", "1, the crest", 1, 1e-6, "none")
        case.expect("envelope S MIN", "least head at the lower end, m", "H0 - b Q", start - fall, tolerance, ROUNDING)
        case.expect(f"watch CREST {case.at(opened)} GROWTH", "growth of the cavity, m3/s",
                    "2 (z + hv - (H0 - b Q))/b", growth, 1e-6, reason)
        case.expect("cavity CREST VOLUME", "greatest volume, m3", "g 2 L2/a", growth * period, 2e-6, reason)
        case.expect(f"time watch CREST HEAD above {vapour + 0.1:.1f} from {case.at(opened)}", "the cavity closes, s",
                    "t1 + 2 L2/a + g (2 L2/a)/(2 (H0 - z - hv)/b - g)", opened + period + growth * period / shrink,
                    case.step, "one time step")
        closed = period + growth * period / shrink
        step = case.at(opened) - 1 + math.ceil(closed / case.step)  # each step counts whole, from one step before
        case.expect(f"watch CREST {step} HEAD", "head at the step of the end, m", "H0 - (z + hv - (H0 - b Q))",
                    start - lack, 2 * tolerance, ROUNDING)
        case.expect(f"greatest watch CREST HEAD {case.at(opened)} {case.at(6.0)}", "head as it closes, m",
                    "H0 - (z + hv - (H0 - b Q))", start - lack, 2 * tolerance, ROUNDING)
        heel = opened + case.pipe("DOWN").travel
        case.expect(f"probe P2 0 {case.at(heel)} HEAD", "head behind the crest as the wave comes, m", "z + hv",
                    vapour, tolerance, ROUNDING)
        case.expect("envelope P2 0 MIN", "least head behind the crest, m", "z + hv", vapour, tolerance, ROUNDING)


def sloping_main():
    for name in ["sloping_main", "sloping_main_coarse"]:
        case = Case(name)
        pipe, start = case.pipe("P"), case.head("B")
        reaches, climb = case.reaches("P"), case.number("reservoir", "B", 2)
        fall = pipe.impedance * pipe.flow
        tolerance = pipe.rounding(fall)

        def vapour(place):
            return climb * place / reaches + VAPOUR

        lowest = math.ceil((start - fall - VAPOUR) / climb * reaches)  # the first place above that elevation
        way = pipe.length / reaches
        reason = AREA_ROUNDING
        case.expect("count cavity", "places with a cavity", "those with z + hv > H0 - b Q", reaches - lowest, 1e-6,
                    "none")
        case.expect(f"envelope P {lowest - 1} MIN", f"least head {way * (lowest - 1):.0f} m up, below the zone, m",
                    "H0 - b Q", start - fall, tolerance, ROUNDING)
        upper = [line for line in case.lines if line and line[0] == "probe"][2][2]
        for place in [lowest, int(upper), reaches - 1]:
            comes = SHUT + way * place / pipe.wave_speed
            below = start - fall if place == lowest else vapour(place - 1)  # head that comes from the place below
            lack = vapour(place) - below
            words = f"{way * place:.0f} m up"
            case.expect(f"envelope P {place} MIN", f"least head {words}, m", "z + hv", vapour(place), 2e-6,
                        "rounding")
            case.expect(f"time probe P {place} VOLUME above 0 from 0", f"the cavity opens {words}, s", "t0 + x/a",
                        comes, TIME_ROUNDING, ON_A_STEP)
            before = pipe.flow - (start - below) / pipe.impedance
            case.expect(f"probe P {place} {case.at(comes)} QU", f"flow before the cavity {words}, m3/s",
                        "Q - (H0 - h)/b - (z + hv - h)/b, h the head that comes", before - lack / pipe.impedance,
                        1e-6, reason)
            case.expect(f"probe P {place} {case.at(comes)} QD", f"flow behind the cavity {words}, m3/s",
                        "Q - (H0 - z - hv)/b", pipe.flow - (start - vapour(place)) / pipe.impedance, 1e-6, reason)
