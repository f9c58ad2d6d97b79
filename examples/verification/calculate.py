#!/usr/bin/env python3
"""Works out each expected value of the verification cases from its closed formula.

Usage: calculate.py            prints the table
       calculate.py --write    writes it to expected.tsv
       calculate.py --check    says where expected.tsv differs from it; exit status 1 where it does

The physical data (lengths, diameters, wave speeds, flows, heads) are read from the case texts beside this file; the
formulas are those of docs/VERIFICATION.md, in floating point. Nothing here steps through a mesh, and nothing is taken
from the program's output.
"""
import math
import sys

sys.dont_write_bytecode = True
import cavity_cases
from case_data import AREA_ROUNDING, FOLDER, GRAVITY, ON_A_STEP, ROUNDING, SHUT, TIME_ROUNDING, Case, rows

TABLE = FOLDER / "expected.tsv"
COLUMNS = ["case", "line", "quantity", "formula", "expected", "tolerance", "reason"]
BAROMETER = 10.33  # m of water, of the gas tables
EXPONENT = 1.2  # of the gas tables


def solve(function, low, high):
    """The zero of a function between two places where its signs differ, by halving."""
    sign = function(low) > 0
    for _ in range(200):
        middle = (low + high) / 2
        if (function(middle) > 0) == sign:
            low = middle
        else:
            high = middle
    return (low + high) / 2


def stop_three_speeds():
    case = Case("stop_three_speeds")
    for kind in ["STEEL", "IRON", "PVC"]:
        pipe, start = case.pipe(kind), case.head(f"R_{kind}")
        back = SHUT + 2 * pipe.travel
        tolerance = pipe.rounding(pipe.joukowsky)
        case.expect(f"watch H_{kind} {case.at(SHUT)} HEAD", f"{kind}: head as the hydrant shuts, m", "H0 + a V/g",
                    start + pipe.joukowsky, tolerance, ROUNDING)
        case.expect(f"watch H_{kind} {case.at(back) - 1} HEAD", f"{kind}: head just before 2L/a, m", "H0 + a V/g",
                    start + pipe.joukowsky, tolerance, ROUNDING)
        case.expect(f"watch H_{kind} {case.at(back)} HEAD", f"{kind}: head at 2L/a, m", "H0 - a V/g",
                    start - pipe.joukowsky, tolerance, ROUNDING)
    pipe, start = case.pipe("STEEL"), case.head("R_STEEL")
    tolerance = pipe.rounding(pipe.joukowsky)
    case.expect("peak HEAD", "greatest head of the three mains, m", "H0 + a V/g of STEEL", start + pipe.joukowsky,
                tolerance, ROUNDING)
    case.expect("peak LOW_HEAD", "least head of the three mains, m", "H0 - a V/g of STEEL", start - pipe.joukowsky,
                tolerance, ROUNDING)
    middle = start + pipe.joukowsky / 2
    for place, words in [(20, "the hydrant"), (10, "half-way"), (5, "a quarter of the way from the reservoir")]:
        line = "watch H_STEEL" if place == 20 else f"probe STEEL {place}"
        way = pipe.length * (1 - place / 20)
        case.expect(f"time {line} HEAD above {middle:.0f} from 0", f"STEEL: the rise comes to {words}, s", "t0 + x/a",
                    SHUT + way / pipe.wave_speed, TIME_ROUNDING, ON_A_STEP)
        back = SHUT + (2 * pipe.length - way) / pipe.wave_speed
        case.expect(f"time {line} HEAD below {middle:.0f} from {case.at(SHUT + way / pipe.wave_speed)}",
                    f"STEEL: its reflection comes to {words}, s", "t0 + (2L - x)/a", back, TIME_ROUNDING, ON_A_STEP)
    case.expect(f"probe STEEL 10 {case.at(SHUT + 1.5 * pipe.travel)} HEAD",
                "STEEL: head half-way as the reflection comes, m", "H0", start, pipe.rounding(pipe.joukowsky),
                ROUNDING)
    case.expect(f"probe STEEL 10 {case.at(SHUT + 1.5 * pipe.travel)} QU",
                "STEEL: flow half-way as the reflection comes, m3/s", "-Q", -pipe.flow, 1e-7, "rounding of flows")
    case.expect(f"time watch H_STEEL HEAD above {middle:.0f} from {case.at(SHUT + 2 * pipe.travel)}",
                "STEEL: the head at the hydrant rises again, s", "t0 + 4L/a", SHUT + 4 * pipe.travel, TIME_ROUNDING,
                ON_A_STEP)


def stop_adjusted_speed():
    for name in ["stop_adjusted_speed_coarse", "stop_adjusted_speed_fine"]:
        case = Case(name)
        pipe, start = case.pipe("P"), case.head("R")
        speed = pipe.length / (case.reaches("P") * case.step)
        rise = speed * pipe.velocity / GRAVITY
        adjustment = abs(speed / pipe.wave_speed - 1)
        case.expect(f"watch H {case.at(SHUT)} HEAD", "head as the hydrant shuts, m", "H0 + a V/g",
                    start + pipe.joukowsky, adjustment * pipe.joukowsky + pipe.rounding(rise),
                    f"the wave speed is adjusted by {adjustment:.1%} to whole reaches")
        case.expect(f"watch H {case.at(SHUT)} HEAD", "the same with the adjusted speed, m",
                    "H0 + a' V/g, a' = L/(N dt)", start + rise, pipe.rounding(rise), ROUNDING)
        case.expect(f"time watch H HEAD below {start:.0f} from {case.at(SHUT)}", "the rise ends, s", "t0 + 2L/a",
                    SHUT + 2 * pipe.travel, adjustment * 2 * pipe.length / speed + TIME_ROUNDING,
                    f"the wave speed is adjusted by {adjustment:.1%} to whole reaches")


def slow_closure():
    for name in ["slow_closure", "slow_closure_coarse"]:
        case = Case(name)
        for number, count in [(8, 4), (6, 3)]:
            pipe, start = case.pipe(f"P{number}"), case.head(f"R{number}")
            (opens, _), (ends, _) = case.table("flows", f"IN_{number}")
            rise = 2 * pipe.length * pipe.velocity / (GRAVITY * (ends - opens))
            tolerance = pipe.rounding(pipe.joukowsky)
            reaches, words = case.reaches(f"P{number}"), f"closure in {count} times 2L/a"
            case.expect(f"envelope H{number} MAX", f"{words}: greatest head, m", "H0 + 2 L V/(g Tc)", start + rise,
                        tolerance, ROUNDING)
            case.expect(f"time watch H{number} HEAD above {start + rise - 0.001:.3f} from 0",
                        f"{words}: time of the greatest head, s", "t0 + 2L/a", opens + 2 * pipe.travel, TIME_ROUNDING,
                        ON_A_STEP)
            case.expect(f"envelope P{number} {reaches // 2} MAX", f"{words}: greatest head half-way, m",
                        "H0 + 2 (L/2) V/(g Tc)", start + rise / 2, tolerance, ROUNDING)
            if count % 2 == 0:
                case.expect(f"greatest watch H{number} HEAD {case.at(ends)} {case.at(ends + 4)}",
                            f"{words}: greatest head after the closure, m", "H0, the count being even", start,
                            tolerance, ROUNDING)
            else:
                case.expect(f"watch H{number} {case.at(ends)} HEAD", f"{words}: head as the closure ends, m",
                            "H0 + 2 L V/(g Tc), the count being odd", start + rise, tolerance, ROUNDING)
                case.expect(f"watch H{number} {case.at(ends + 2 * pipe.travel)} HEAD",
                            f"{words}: head 2L/a after the closure, m", "H0 - 2 L V/(g Tc)", start - rise, tolerance,
                            ROUNDING)


def fast_closure():
    case = Case("fast_closure")
    pipe, start = case.pipe("P"), case.head("R")
    (opens, _), (ends, _) = case.table("flows", "IN_1")
    closure, reaches = ends - opens, case.reaches("P")
    tolerance = pipe.rounding(pipe.joukowsky)
    reach = pipe.wave_speed * closure / 2  # the full rise comes up to this distance from the reservoir
    full = round(reaches * reach / pipe.length)
    case.expect("envelope H MAX", "greatest head at the hydrant, m", "H0 + a V/g", start + pipe.joukowsky, tolerance,
                ROUNDING)
    case.expect("time envelope H MAX", "time of the greatest head there, s", "t0 + Tc", ends, TIME_ROUNDING,
                ON_A_STEP)
    case.expect(f"envelope P {full} MAX", f"greatest head {reach:.0f} m from the reservoir, m",
                "H0 + a V/g at x = a Tc/2", start + pipe.joukowsky, tolerance, ROUNDING)
    case.expect(f"time probe P {full} HEAD above {start + 0.999 * pipe.joukowsky:.1f} from 0",
                "the full rise comes there, s", "t0 + Tc + (L - x)/a", ends + (pipe.length - reach) / pipe.wave_speed,
                TIME_ROUNDING, ON_A_STEP)
    for place in [full - 1, full // 2]:
        way = pipe.length * place / reaches
        case.expect(f"envelope P {place} MAX", f"greatest head {way:.0f} m from the reservoir, m",
                    "H0 + (a V/g) x/(a Tc/2)", start + pipe.joukowsky * way / reach, tolerance, ROUNDING)


def allievi():
    case = Case("allievi")
    reason = f"{ROUNDING}; the equations hold in discrete time too"
    for name, multiples, wanted in [("HIGH", 1, "123456"), ("LOW", 2, "12345678"), ("OPEN", 2, "1234")]:
        pipe, start = case.pipe(f"P_{name}"), case.head(f"R_{name}")
        full_flow = case.number("discharge", name, 3)
        (opens, first), (ends, last) = case.table("openings", case.fields("discharge", name)[6][1:])
        half = pipe.impedance * full_flow / (2 * start)  # Allievi's number a V0/(2 g H0)
        period = 2 * pipe.travel

        def opening(time):
            part = min(1.0, max(0.0, (time - opens) / (ends - opens)))
            return first + (last - first) * part

        # roots of the relative head, at times a half (or whole) period apart: before the movement the head is H0
        roots = {}
        for number in range(0, 2 * 10 + 1):
            time = opens + number * period / 2
            if time <= opens:
                roots[number] = 1.0
                continue
            before = roots.get(number - 2, 1.0)
            gate, gate_before = opening(time), opening(time - period)
            right = 2 - before ** 2 + 2 * half * gate_before * before  # z^2 + 2 half gate z = right
            roots[number] = -half * gate + math.sqrt((half * gate) ** 2 + right)
        for word in wanted:
            number = int(word) * 2 // multiples
            time = opens + number * period / 2
            head = start * roots[number] ** 2
            words = f"{name}: head at {number / 2:g} times 2L/a"
            case.expect(f"watch {name} {case.at(time)} HEAD", f"{words}, m", "H0 z_i^2, interlocking equations", head,
                        2 * pipe.rounding(pipe.impedance * full_flow), reason)
        if name != "LOW":
            # the main of OPEN runs from the valve
            place, sign = (0, -1) if name == "OPEN" else (case.reaches("P_HIGH"), 1)
            case.expect(f"probe P_{name} {place} {case.at(opens + period)} QU",
                        f"{name}: flow through the valve at 2L/a, m3/s", "Q0 n_1 z_1",
                        sign * full_flow * opening(opens + period) * roots[2], 2e-6, AREA_ROUNDING)


def transmission(*impedances):
    """The part of a wave in the first pipe that goes on into the others."""
    return 2 / impedances[0] / sum(1 / impedance for impedance in impedances)


def wave_reflections():
    case = Case("wave_reflections")
    narrow, wide = case.pipe("NARROW1"), case.pipe("WIDE1")
    start, wave = case.head("R1"), narrow.impedance * narrow.flow
    passed = transmission(narrow.impedance, wide.impedance)
    tolerance = 2 * narrow.rounding(wave)
    there = SHUT + narrow.travel
    case.expect(f"watch WIDENING {case.at(there)} HEAD", "narrow to wide: head at the widening, m", "H0 + s F",
                start + passed * wave, tolerance, ROUNDING)
    case.expect(f"watch STOP1 {case.at(there + narrow.travel)} HEAD",
                "narrow to wide: head at the stop after 2L/a, m", "H0 + F + 2 (s - 1) F",
                start + wave + 2 * (passed - 1) * wave, tolerance, ROUNDING)
    case.expect(f"probe WIDE1 5 {case.at(there + wide.travel / 2)} HEAD",
                "narrow to wide: head half-way in the wide main, m", "H0 + s F", start + passed * wave, tolerance,
                ROUNDING)
    case.expect(f"probe WIDE1 5 {case.at(there + wide.travel / 2)} QU",
                "narrow to wide: flow half-way in the wide main, m3/s", "Q - s F/b",
                wide.flow - passed * wave / wide.impedance, 1e-6, AREA_ROUNDING)
    back = there + 1.5 * wide.travel
    case.expect(f"probe WIDE1 5 {case.at(back)} HEAD", "reservoir: head half-way as its reflection comes, m",
                "H0 + s F - s F", start, tolerance, ROUNDING)
    case.expect(f"probe WIDE1 5 {case.at(back)} QU", "reservoir: flow half-way as its reflection comes, m3/s",
                "Q - 2 s F/b", wide.flow - 2 * passed * wave / wide.impedance, 1e-6, AREA_ROUNDING)

    wide, narrow = case.pipe("WIDE2"), case.pipe("NARROW2")
    (_, low), (_, high) = case.table("heads", "RISE")
    wave = high - low
    passed = transmission(wide.impedance, narrow.impedance)
    there = SHUT + wide.travel
    tolerance = 2 * narrow.rounding(wave)
    case.expect(f"watch NARROWING {case.at(there)} HEAD", "wide to narrow: head at the narrowing, m", "H0 + s F",
                low + passed * wave, tolerance, ROUNDING)
    case.expect(f"watch END2 {case.at(there + narrow.travel)} HEAD", "wide to narrow: head at the dead end, m",
                "H0 + 2 s F", low + 2 * passed * wave, tolerance, ROUNDING)

    main, west, east = case.pipe("MAIN3"), case.pipe("WEST3"), case.pipe("EAST3")
    start, wave = case.head("R3"), west.impedance * west.flow
    passed = transmission(west.impedance, main.impedance, east.impedance)
    there = SHUT + west.travel
    tolerance = 2 * west.rounding(wave)
    case.expect(f"watch FORK {case.at(there)} HEAD", "fork of three: head at the fork, m", "H0 + s F",
                start + passed * wave, tolerance, ROUNDING)
    case.expect(f"watch END3 {case.at(there + east.travel)} HEAD", "fork of three: head at the dead end, m",
                "H0 + 2 s F", start + 2 * passed * wave, tolerance, ROUNDING)
    case.expect(f"watch STOP3 {case.at(there + west.travel)} HEAD", "fork of three: head at the stop after 2L/a, m",
                "H0 + F + 2 (s - 1) F", start + wave + 2 * (passed - 1) * wave, tolerance, ROUNDING)
    again = transmission(east.impedance, main.impedance, west.impedance)
    case.expect(f"watch FORK {case.at(there + 2 * east.travel)} HEAD",
                "fork of three: head as the dead end's wave comes, m", "H0 + s F + s3 s F",
                start + passed * wave + again * passed * wave, tolerance, ROUNDING)


STEADY = "rounding of the area to 1 mm2 and of the loss of each reach to 1e-6 m"
STEADY_HEAD = 0.0001
STEADY_FLOW = 0.000002


def steady_networks():
    case = Case("steady_networks")
    last = int(case.fields("steps")[1])
    first, second = case.pipe("S1"), case.pipe("S2")
    lift = case.head("A") - case.head("B")
    flow = math.sqrt(lift / (first.resistance + second.resistance))
    case.expect(f"probe S2 0 {last} QU", "series: flow, m3/s", "sqrt(H/(R1 + R2)), R = f L/(2 g D A^2)", flow,
                STEADY_FLOW, STEADY)
    case.expect(f"watch S {last} HEAD", "series: head between the mains, m", "HA - R1 Q^2",
                case.head("A") - first.resistance * flow ** 2, STEADY_HEAD, STEADY)
    ends = case.pipe("FIRST").resistance + case.pipe("LAST").resistance
    left, right = case.pipe("LEFT").resistance, case.pipe("RIGHT").resistance
    both = 1 / (1 / math.sqrt(left) + 1 / math.sqrt(right)) ** 2
    flow = math.sqrt((case.head("C") - case.head("D")) / (ends + both))
    case.expect(f"probe LAST 0 {last} QU", "parallel: flow, m3/s",
                "sqrt(H/(R1 + Rp + R4)), Rp^-1/2 = R2^-1/2 + R3^-1/2", flow, STEADY_FLOW, STEADY)
    case.expect(f"probe LEFT 2 {last} QU", "parallel: flow in the left main, m3/s", "Q sqrt(Rp/R2)",
                flow * math.sqrt(both / left), STEADY_FLOW, STEADY)
    case.expect(f"probe RIGHT 2 {last} QU", "parallel: flow in the right main, m3/s", "Q sqrt(Rp/R3)",
                flow * math.sqrt(both / right), STEADY_FLOW, STEADY)
    case.expect(f"watch F {last} HEAD", "parallel: head at the first fork, m", "HC - R1 Q^2",
                case.head("C") - case.pipe("FIRST").resistance * flow ** 2, STEADY_HEAD, STEADY)
    case.expect(f"watch G {last} HEAD", "parallel: head at the second fork, m", "HC - (R1 + Rp) Q^2",
                case.head("C") - (case.pipe("FIRST").resistance + both) * flow ** 2, STEADY_HEAD, STEADY)
    valve = case.fields("discharge", "V")
    full_flow, loss, outlet, opening = map(float, valve[3:7])
    orifice = loss / (opening * full_flow) ** 2
    pipe = case.pipe("TO_V")
    flow = math.sqrt((case.head("E") - outlet) / (pipe.resistance + orifice))
    case.expect(f"probe TO_V 5 {last} QU", "valve at the end: flow, m3/s", "sqrt((HE - Ho)/(R + h0/(n q0)^2))", flow,
                STEADY_FLOW, STEADY)
    case.expect(f"watch V {last} HEAD", "valve at the end: head before it, m", "Ho + h0 (Q/(n q0))^2",
                outlet + orifice * flow ** 2, STEADY_HEAD, STEADY)


def flow_establishment():
    for name in ["flow_establishment", "flow_establishment_coarse"]:
        case = Case(name)
        pipe, drop = case.pipe("P"), case.head("A") - case.head("B")
        steady = math.sqrt(drop / pipe.resistance)
        scale = pipe.length * steady / (GRAVITY * pipe.area * drop)  # s
        place = case.reaches("P") // 2
        for time in [10, 20, 40, 60]:
            part = math.tanh(time / scale)
            # the loss lags by half a time step, so the flow is ahead by what it would have cost in that time
            lag = case.step / 2 / scale * steady * part ** 2
            case.expect(f"probe P {place} {case.at(time)} QU", f"flow after {time} s, m3/s",
                        "Q0 tanh(g A H t/(L Q0))", steady * part, lag, "friction is half a time step late")


def line_packing():
    for name in ["line_packing", "line_packing_coarse"]:
        case = Case(name)
        pipe, reaches = case.pipe("P"), case.reaches("P")
        loss = pipe.resistance * pipe.flow ** 2
        valve = case.head("R") - loss
        one_reach = loss / reaches
        rate = pipe.friction * pipe.velocity / (4 * pipe.diameter * pipe.wave_speed)  # of the front, per metre
        reason = "the loss of a reach is that at its start, second order; the fifth order of y = f V t/(8 D)"

        def tolerance(order):
            return one_reach * order ** 2 + order ** 5 * pipe.joukowsky + pipe.rounding(pipe.joukowsky)

        case.expect(f"watch V {case.at(SHUT)} HEAD", "head at the valve as it shuts, m", "Hv + a V/g",
                    valve + pipe.joukowsky, tolerance(0), ROUNDING)
        half = pipe.length / 2
        case.expect(f"probe P {reaches // 2} {case.at(SHUT + half / pipe.wave_speed)} HEAD",
                    "head half-way as the front comes, m", "Hv + S x + (a V/g)(1 - tanh(f V x/(4 a D)))",
                    valve + loss / 2 + pipe.joukowsky * (1 - math.tanh(rate * half)), tolerance(rate * half), reason)
        for time, words in [(pipe.travel, "L/a"), (2 * (pipe.travel - case.step), "2L/a, two steps before")]:
            order = rate * pipe.wave_speed * time / 2
            case.expect(f"watch V {case.at(SHUT + time)} HEAD", f"head at the valve after {words}, m",
                        "Hv + (a V/g)(1 + 2 tanh(f V t/(8 D)))", valve + pipe.joukowsky * (1 + 2 * math.tanh(order)),
                        tolerance(order), reason)
        order = rate * pipe.length
        case.expect("envelope V MAX", "greatest head at the valve, m", "Hv + a V/g + h_f",
                    valve + pipe.joukowsky + loss,
                    2 / 3 * order ** 3 * pipe.joukowsky + one_reach + pipe.rounding(pipe.joukowsky),
                    "the third order of f V L/(4 a D), and the steady loss of one reach")


def surge_tank_oscillation():
    case = Case("surge_tank_oscillation")
    pipe, start = case.pipe("TUNNEL"), case.head("R")
    area = case.number("tank", "T", 3)
    rate = math.sqrt(GRAVITY * pipe.area / (pipe.length * area))  # 1/s
    rise = pipe.flow / (area * rate)
    period = 2 * math.pi / rate
    elastic = (rate * pipe.travel) ** 2 / 6
    amount = "compressibility of the tunnel's water: the part (w L/a)^2/6"
    late = f"{amount}; one time step"
    case.expect("envelope T MAX", "greatest level, m", "H0 + V sqrt(L A/(g At))", start + rise,
                elastic * rise + 0.001, amount)
    case.expect("envelope T MIN", "least level, m", "H0 - V sqrt(L A/(g At))", start - rise, elastic * rise + 0.001,
                amount)
    quarter = case.at(math.ceil(period / 4 / case.step) * case.step)
    for parts, side in [(2, "below"), (4, "above")]:
        time = parts * period / 4
        case.expect(f"time watch T HEAD {side} {start:.0f} from {(parts - 1) * quarter}",
                    "the level is back, s" if parts == 2 else "the level is back again, one period, s",
                    "pi sqrt(L At/(g A))" if parts == 2 else "2 pi sqrt(L At/(g A))", time,
                    elastic * time + case.step, late)
    time = round(period / 8 / case.step)
    case.expect(f"watch T {time} HEAD", "level after an eighth of the period, m", "H0 + Z sin(w t)",
                start + rise * math.sin(rate * time * case.step), 2 * elastic * rise + 0.001, amount)
    case.expect(f"probe TUNNEL 5 {time} QU", "flow half-way in the tunnel then, m3/s", "Q cos(w t)",
                pipe.flow * math.cos(rate * time * case.step), 2 * elastic * pipe.flow + 0.001,
                f"{amount}, which also lets the flow differ along the tunnel")


def surge_tank_friction():
    case = Case("surge_tank_friction")
    pipe, start = case.pipe("TUNNEL"), case.head("R")
    area = case.number("tank", "T", 3)
    flow = abs(pipe.flow)
    loss = pipe.resistance * flow ** 2
    rate = 2 * pipe.resistance * GRAVITY * pipe.area * area / pipe.length  # m of the energy equation, 1/m
    # dimensionless levels m z; the water comes to rest at the first upsurge, then at the first downsurge, and so on
    up_level = solve(lambda x: x + math.log(1 - x) + rate * loss, 1e-9, 1 - 1e-12)
    constant = (1 + up_level) * math.exp(-up_level)
    down_level = solve(lambda x: (1 + x) * math.exp(-x) - constant, -1 + 1e-12, -1e-9)
    rigid = math.sqrt(GRAVITY * pipe.area / (pipe.length * area))
    elastic = (rigid * pipe.travel) ** 2 / 6
    # the loss lags by half a time step; the work of that is dt/2 times 2/3 of the loss times the flow at the start
    late = flow * case.step / 2 * 2 / 3 * loss / (area * up_level / rate)
    amount = "compressibility of the tunnel's water; friction is half a time step late"
    tolerance = elastic * flow / (area * rigid) + late + 0.001
    case.expect("envelope T MAX", "first upsurge, m", "H0 + z: m z + ln(1 - m z) + m h_f = 0",
                start + up_level / rate, tolerance, amount)
    case.expect("envelope T MIN", "first downsurge, m", "H0 - z2: (1 - m z2) e^(m z2) = (1 + m z) e^(-m z)",
                start + down_level / rate, tolerance, amount)
    case.expect("watch T 0 HEAD", "level in steady flow, m", "H0 - h_f", start - loss, 0.000001, "rounding")
    case.expect("watch T 1 HEAD", "level after one step, m", "H0 - h_f + Q dt/At",
                start - loss + flow * case.step / area, 0.0001, "the flow falls a little within the step")
    second = solve(lambda x: (1 - x) * math.exp(x) - (1 - down_level) * math.exp(down_level), 1e-9, 1 - 1e-12)
    last = int(case.fields("steps")[1])
    case.expect(f"greatest watch T HEAD {case.at(480.0)} {last}", "second upsurge, m",
                "H0 + z3: (1 - m z3) e^(m z3) = (1 + m z2) e^(-m z2)", start + second / rate, tolerance, amount)


def gas_head(case, node, volume):
    """The gas constant of a vessel, and its table judged: every head is that of p V^n."""
    table = case.table("gas", case.fields("vessel", node)[3][1:])
    inside = [pair for pair in table if pair[0] <= volume][-1]
    constant = (inside[1] + BAROMETER) * inside[0] ** EXPONENT
    for each, head in table:
        if abs(constant / each ** EXPONENT - BAROMETER - head) > 2e-6:
            sys.exit(f"{case.name}.case: the gas table isn't p V^{EXPONENT} at {each} m3")
    # a chord lies above the curve by at most this part of the absolute head
    ratio = max(right[0] / left[0] for left, right in zip(table, table[1:]))
    chord = EXPONENT * (EXPONENT + 1) / 8 * math.log(ratio) ** 2
    return constant, chord


def vessel_small_oscillation():
    for name in ["vessel_small_oscillation", "vessel_small_oscillation_coarse"]:
        case = Case(name)
        pipe, start = case.pipe("P"), case.head("R")
        volume = case.number("vessel", "VE", 4)
        constant, _ = gas_head(case, "VE", volume)
        absolute = constant / volume ** EXPONENT
        area = volume / (EXPONENT * absolute)  # of a surge tank that gives the same rise
        rate = math.sqrt(GRAVITY * pipe.area / (pipe.length * area))
        period, rise = 2 * math.pi / rate, pipe.flow / (area * rate)
        elastic = (rate * pipe.travel) ** 2 / 6
        growth = rate ** 2 * case.step / 4  # 1/s, of the amplitude
        quarter = round(period / 4 / case.step)
        # the water's own spring: x tan x = (rate L/a)^2 with x = w L/a
        whole = solve(lambda x: x * math.tan(x) - (rate * pipe.travel) ** 2, 1e-9, 1.5)
        elastic_period = 2 * math.pi * pipe.travel / whole
        uneven = (rise / absolute) ** 2
        line = f"time watch VE HEAD above {start:.0f} from {3 * quarter}"
        case.expect(line, "a period, rigid column, s", "2 pi sqrt(L Vg/(g A n H))", period,
                    1.1 * elastic * period + case.step,
                    "compressibility of the water: the part (w L/a)^2/6; one time step")
        case.expect(line, "a period, with compressible water, s", "2 pi/w: (w L/a) tan(w L/a) = A L g n H/(a^2 Vg)",
                    elastic_period, uneven * elastic_period + case.step,
                    "one time step; the gas is not linear, the part (Z/H)^2")
        uneven = (EXPONENT + 1) / EXPONENT * rise ** 2 / absolute / 4
        case.expect(f"greatest watch VE HEAD 0 {2 * quarter}", "first upsurge, m", "H0 + Q sqrt(L n H/(g A Vg))",
                    start + rise, (elastic + growth * period / 4) * rise + uneven,
                    "compressibility; the vessel's inflow is that of one step before; the gas is not linear")


def vessel_large():
    for name in ["vessel_large", "vessel_large_coarse"]:
        case = Case(name)
        pipe, outside = case.pipe("P"), case.head("R") + BAROMETER
        volume = case.number("vessel", "VE", 4)
        constant, chord = gas_head(case, "VE", volume)
        kinetic = pipe.length * pipe.area * pipe.velocity ** 2 / (2 * GRAVITY)  # m4

        def gained(other):
            """The work of the outer head and of the gas from the first volume to another, less the kinetic energy."""
            gas = constant / (EXPONENT - 1) * (volume ** (1 - EXPONENT) - other ** (1 - EXPONENT))
            return outside * (other - volume) - gas - kinetic

        case.expect("watch VE 1 VOLUME", "volume after one step, m3", "V0 + Q dt", volume + pipe.flow * case.step,
                    1e-8, "rounding")
        rate = math.sqrt(GRAVITY * pipe.area * EXPONENT * outside / (pipe.length * volume))
        elastic = (rate * pipe.travel) ** 2 / 6
        late = math.pi * rate * case.step / 8  # growth of the amplitude in a quarter of a period
        reason = "compressibility; the vessel's inflow is that of one step before; chords of the gas table"
        for word, other, quarters in [("MIN", solve(gained, volume, 100 * volume), 1),
                                      ("MAX", solve(gained, volume / 100, volume), 3)]:
            head = constant / other ** EXPONENT - BAROMETER
            swing = abs(head + BAROMETER - outside)
            case.expect(f"envelope VE {word}", f"{'least' if word == 'MIN' else 'greatest'} head, m",
                        "C/V^n - Hb: Hs (V - V0) - C (V0^(1-n) - V^(1-n))/(n-1) = L A v^2/(2g)", head,
                        (elastic + quarters * late) * swing * 1.5 + chord * (head + BAROMETER), reason)


def pump_duty_point():
    case = Case("pump_duty_point")
    last = int(case.fields("steps")[1])
    curve = case.table("curve", "C")
    for number, name in [(1, "FULL"), (2, "SLOW"), (3, "SLOWEST")]:
        speed = float(case.fields("pump", name)[4])
        low, high = case.head(f"LOW{number}"), case.head(f"HIGH{number}")
        before, after = case.pipe(f"IN{number}").resistance, case.pipe(f"OUT{number}").resistance
        # flows go with the speed, rises with its square; on a stretch the rise is p - k Q
        points = [(speed * flow, speed ** 2 * rise) for flow, rise in curve]
        for stretch, ((first, p), (second, q)) in enumerate(zip(points, points[1:]), 1):
            k = (p - q) / (second - first)
            net = p + k * first - (high - low)
            flow = (-k + math.sqrt(max(0.0, k ** 2 + 4 * (before + after) * net))) / (2 * (before + after))
            if first <= flow <= second:
                break
        words = f"speed {speed:g}, stretch {stretch} of the curve"
        case.expect(f"probe OUT{number} 0 {last} QU", f"{words}: flow, m3/s", "s^2 P(Q/s) = H + (R1 + R2) Q^2", flow,
                    STEADY_FLOW, STEADY)
        case.expect(f"probe OUT{number} 0 {last} HEAD", f"{words}: head behind the pump, m", "HH + R2 Q^2",
                    high + after * flow ** 2, STEADY_HEAD, STEADY)
        case.expect(f"probe IN{number} 2 {last} HEAD", f"{words}: head before the pump, m", "HL - R1 Q^2",
                    low - before * flow ** 2, STEADY_HEAD, STEADY)


def pump_trip_check_valve():
    case = Case("pump_trip_check_valve")
    suction, rising = case.pipe("SUCTION"), case.pipe("RISING")
    low, high = case.head("LOW"), case.head("HIGH")
    lift = high - low
    assert lift > (suction.impedance + rising.impedance) * rising.flow, "the check valve does not shut at once"
    step, last = case.at(SHUT), case.reaches("RISING")
    tolerance = rising.rounding(rising.joukowsky)
    case.expect(f"probe RISING 0 {step} HEAD", "first downsurge behind the pump, m", "HH - a V/g",
                high - rising.joukowsky, tolerance, ROUNDING)
    case.expect(f"probe SUCTION 2 {step} HEAD", "first upsurge before the pump, m", "HL + a V1/g",
                low + suction.joukowsky, tolerance, ROUNDING)
    case.expect(f"probe RISING 0 {step} QU", "flow as the check valve shuts, m3/s", "0", 0, 1e-9, "none")
    back = SHUT + 2 * rising.travel
    case.expect(f"probe RISING 0 {case.at(back)} HEAD", "upsurge behind the pump after 2L/a, m", "HH + a V/g",
                high + rising.joukowsky, tolerance, ROUNDING)
    case.expect(f"time probe RISING 0 HEAD above {high:.0f} from {step}", "time of that upsurge, s", "t0 + 2L/a",
                back, TIME_ROUNDING, ON_A_STEP)
    case.expect(f"envelope RISING {last // 2} MIN", "least head half-way up the main, m", "HH - a V/g",
                high - rising.joukowsky, tolerance, ROUNDING)


def pump_trip_low_lift():
    case = Case("pump_trip_low_lift")
    suction, rising = case.pipe("SUCTION"), case.pipe("RISING")
    low, high = case.head("LOW"), case.head("HIGH")
    lift, step = high - low, case.at(SHUT)
    length, travel = suction.length + rising.length, suction.travel + rising.travel
    fall = lift / (suction.impedance + rising.impedance)  # of the flow at the trip
    tolerance = rising.rounding(rising.joukowsky)
    case.expect(f"probe RISING 0 {step} HEAD", "first downsurge behind the pump, m", "HH - H b2/(b1 + b2)",
                high - lift / 2, tolerance, ROUNDING)
    case.expect(f"probe SUCTION 5 {step} HEAD", "first upsurge before the pump, m", "HL + H b1/(b1 + b2)",
                low + lift / 2, tolerance, ROUNDING)
    case.expect(f"probe RISING 0 {step} QU", "flow at the trip, m3/s", "Q - H/(b1 + b2)", rising.flow - fall, 2e-6,
                AREA_ROUNDING)
    rigid = length * rising.velocity / (GRAVITY * lift)
    line = f"time probe RISING 0 QU below 0.000001 from {step}"
    case.expect(line, "the flow turns, rigid column, s", "t0 + L V/(g H)", SHUT + rigid, travel / 2 + case.step,
                "the flow falls in steps: a quarter of 2L/a, and one time step")
    # the two waves of the trip come by the pump at these times; each takes the same part of the flow
    passes = [0.0]
    for round_trip in range(60):
        begin = round_trip * 2 * travel
        passes += [begin + 2 * suction.travel, begin + 2 * rising.travel, begin + 2 * travel, begin + 2 * travel]
    count = math.floor(rising.flow / fall) + 1
    case.expect(line, "the flow turns, by the count of waves, s", "t0 + time of wave n, n > Q (b1 + b2)/H",
                SHUT + sorted(passes)[count - 1], TIME_ROUNDING, ON_A_STEP)


def pump_trip_friction():
    case = Case("pump_trip_friction")
    suction, rising = case.pipe("SUCTION"), case.pipe("RISING")
    low, high = case.head("LOW"), case.head("HIGH")
    lift, step = high - low, case.at(SHUT)
    before, after = suction.resistance * suction.flow ** 2, rising.resistance * rising.flow ** 2
    rise = lift + before + after
    case.expect(f"probe RISING 0 {step - 1} HEAD", "steady head behind the pump, m", "HH + R2 Q^2", high + after,
                0.0001, STEADY)
    case.expect(f"probe RISING 0 {step} HEAD", "first downsurge behind the pump, m",
                "HH + R2 Q^2 - P b2/(b1 + b2), P = H + (R1 + R2) Q^2", high + after - rise / 2, 0.0001,
                "rounding of the loss of each reach to 1e-6 m")
    total = (suction.resistance + rising.resistance) * rising.area ** 2  # of a velocity
    length, travel = suction.length + rising.length, suction.travel + rising.travel
    time = length / (GRAVITY * math.sqrt(lift * total)) * math.atan(rising.velocity * math.sqrt(total / lift))
    case.expect(f"time probe RISING 0 QU below 0.000001 from {step}", "the flow turns, s",
                "t0 + L/(g sqrt(H k)) atan(V sqrt(k/H))", SHUT + time, travel / 2 * rise / lift + case.step,
                "the flow falls in steps of the whole rise P: a quarter of 2L/a, P/H times; one time step")


def inline_valve_steady():
    case = Case("inline_valve_steady")
    last = int(case.fields("steps")[1])
    for name, before, after, above, below in [("HALF", "P1", "P2", "A", "B"), ("WIDE", "P3", "P4", "C", "D"),
                                              ("BACK", "P5", "P6", "E", "F")]:
        full_flow, loss, opening = map(float, case.fields("inline", name)[3:6])
        valve = loss / (opening * full_flow) ** 2
        first, second = case.pipe(before).resistance, case.pipe(after).resistance
        drop = case.head(above) - case.head(below)
        flow = math.copysign(math.sqrt(abs(drop) / (first + valve + second)), drop)
        words = f"opening {opening:g}{'' if drop > 0 else ', backwards'}"
        case.expect(f"probe {after} 0 {last} QU", f"{words}: flow, m3/s", "sqrt(H/(R1 + h0/(n q0)^2 + R2))", flow,
                    STEADY_FLOW, STEADY)
        case.expect(f"probe {before} 3 {last} HEAD", f"{words}: head before the valve, m", "HA - R1 Q |Q|",
                    case.head(above) - first * flow * abs(flow), STEADY_HEAD, STEADY)
        case.expect(f"probe {after} 0 {last} HEAD", f"{words}: head behind the valve, m", "HB + R2 Q |Q|",
                    case.head(below) + second * flow * abs(flow), STEADY_HEAD, STEADY)


def inline_valve_wave():
    case = Case("inline_valve_wave")
    (_, low), (_, high) = case.table("heads", "RISE")
    wave = high - low
    for name, before, after in [("LIKE", "P1", "P2"), ("UNLIKE", "P3", "P4"), ("CLOSED", "P5", "P6")]:
        full_flow, loss, opening = map(float, case.fields("inline", name)[3:6])
        first, second = case.pipe(before), case.pipe(after)
        both = first.impedance + second.impedance
        area = (opening * full_flow) ** 2 / loss  # (n q0)^2/h0
        # h0 (q/(n q0))^2 + (b1 + b2) q = 2 F
        flow = (math.sqrt((both * area) ** 2 + 8 * area * wave) - both * area) / 2
        step = case.at(SHUT + first.travel)
        tolerance = second.rounding(2 * wave)
        words = {"LIKE": "like mains", "UNLIKE": "narrower main", "CLOSED": "valve shut"}[name]
        case.expect(f"probe {after} 0 {step} QU", f"{words}: flow that passes, m3/s",
                    "q: h0 (q/(n q0))^2 + (b1 + b2) q = 2 F", flow, 1e-6, AREA_ROUNDING)
        case.expect(f"probe {before} 10 {step} HEAD", f"{words}: head before the valve, m", "H0 + 2 F - b1 q",
                    low + 2 * wave - first.impedance * flow, tolerance, ROUNDING)
        case.expect(f"probe {after} 0 {step} HEAD", f"{words}: head behind the valve, m", "H0 + b2 q",
                    low + second.impedance * flow, tolerance, ROUNDING)
        if name == "LIKE":
            case.expect(f"probe {before} 5 {case.at(SHUT + 1.5 * first.travel)} HEAD",
                        f"{words}: head half-way back, m", "H0 + 2 F - b1 q", low + 2 * wave - first.impedance * flow,
                        tolerance, ROUNDING)


ALL = [stop_three_speeds, stop_adjusted_speed, slow_closure, fast_closure, allievi, wave_reflections, steady_networks,
       flow_establishment, line_packing, surge_tank_oscillation, surge_tank_friction, vessel_small_oscillation,
       vessel_large, pump_duty_point, pump_trip_check_valve, pump_trip_low_lift, pump_trip_friction,
       cavity_cases.column_separation, cavity_cases.meeting_waves, cavity_cases.cavity_at_valve, inline_valve_steady,
       inline_valve_wave, cavity_cases.crest_cavity, cavity_cases.sloping_main]


def main():
    for work in ALL:
        work()
    text = "".join("\t".join(row) + "\n" for row in [COLUMNS, *rows])
    words = sys.argv[1:]
    if words == ["--write"]:
        TABLE.write_text(text)
    elif words == ["--check"]:
        wanted, there = text.splitlines(), TABLE.read_text().splitlines()
        wrong = [number for number in range(max(len(wanted), len(there)))
                 if wanted[number:number + 1] != there[number:number + 1]]
        for number in wrong:
            print(f"expected.tsv line {number + 1}: {there[number:number + 1]},"
                  f" calculated {wanted[number:number + 1]}")
        sys.exit(1 if wrong else 0)
    elif not words:
        print(text, end="")
    else:
        sys.exit(__doc__)


if __name__ == "__main__":
    main()
