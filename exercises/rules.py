"""Wrong rules of the interlock, each as in the exercise of that name, and which law a call breaks.

A rule answers a call in a state as `State.answer` does: the number of the answer, or the state after the call.
"""

from model import CALLS, GUEST, HELD, HOST, HOSTED, JUMP, MACHINES, MOVING, NOBODY, OPENIN, OPENOUT
from model import POSE_OF, POSES, PRESS, SHUT, TABLE, State, refusal

FIRST_POSE, PAST_POSES = 36, 48


def verb_and_zone(call):
    """The verb and the zone of a call, or the call's first word and None."""
    verb, *zone = CALLS[call].split()
    return verb, int(zone[0][1]) - 1 if zone and verb != "pose" else None


def claim_overwrites_owner(state, machine, call):
    """A claim is done though another machine owns the zone."""
    answer = state.answer(machine, call)
    verb, zone = verb_and_zone(call)
    is_held = verb == "claim" and answer == refusal(HELD, state.owner[zone])
    return state.with_changes(owner={zone: NOBODY}).answer(machine, call) if is_held else answer


def guest_ignores_posture(state, machine, call):
    """A guest claims a zone whatever its posture is."""
    answer = state.answer(machine, call)
    verb, zone = verb_and_zone(call)
    is_shut = verb == "claim" and answer == refusal(SHUT, state.posture[zone])
    return state.with_changes(owner={zone: machine}) if is_shut else answer


def travels_without_zone(state, machine, call):
    """A pose asks no machine to own its zones."""
    if not FIRST_POSE <= call < PAST_POSES or machine not in HOSTED:
        return state.answer(machine, call)
    zones = HOSTED[machine]
    answer = state.with_changes(owner={zone: machine for zone in zones}).answer(machine, call)
    return answer.with_changes(owner={zone: state.owner[zone] for zone in zones}) if isinstance(answer, State) else answer


def give_sets_no_flag(state, machine, call):
    """A give sets no flag, so the plate on its way is forgotten."""
    answer = state.answer(machine, call)
    verb, zone = verb_and_zone(call)
    return answer.with_changes(flag={zone: False}) if verb == "give" and isinstance(answer, State) else answer


def press_may_jump(state, machine, call):
    """The press takes a pose from which it rests, though it hasn't moved."""
    answer = state.answer(machine, call)
    if machine != PRESS or answer != refusal(JUMP):
        return answer
    [zone], [posture] = HOSTED[PRESS], POSE_OF[PRESS, POSES[call - FIRST_POSE]]
    if state.posture[zone] == posture:
        return state.with_changes()
    return state.with_changes(posture={zone: MOVING}).answer(machine, call)


RULES = {
    it.__name__.replace("_", "-"): it
    for it in (claim_overwrites_owner, guest_ignores_posture, travels_without_zone, give_sets_no_flag, press_may_jump)
}


def broken_law(before, machine, call, after):
    """The law of docs/MODEL.md that a done call breaks, with what it did; or None."""
    for zone in range(6):
        name, owner = f"z{zone + 1}", after.owner[zone]
        if before.owner[zone] not in (NOBODY, machine, owner):
            return f"one_holder: {MACHINES[before.owner[zone]]} holds {name}, and {MACHINES[owner]} too"
        if owner == GUEST[zone] and after.posture[zone] not in (OPENIN, OPENOUT):
            if after.posture[zone] == MOVING:
                return f"mover_is_host: {name} moves, and {MACHINES[owner]} holds it, its guest"
            return f"guest_only_while_open: {MACHINES[owner]} holds {name}, which isn't open"
        if after.posture[zone] == MOVING and owner != HOST[zone]:
            return f"mover_is_host: {name} moves, and its host doesn't hold it"
    if before.plates() != after.plates():
        return f"plates_are_kept: {before.plates()} before, {after.plates()} after"
    is_pose = FIRST_POSE <= call < PAST_POSES
    moves = is_pose and MOVING in POSE_OF[machine, POSES[call - FIRST_POSE]]
    if is_pose and not moves and machine in (TABLE, PRESS) and any(before.posture[zone] != MOVING for zone in HOSTED[machine]):
        return f"no_jump: {MACHINES[machine]} comes to a pose, and didn't move"
    return None
