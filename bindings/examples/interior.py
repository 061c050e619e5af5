"""Press and robot ask for the interior of the press.   PYTHONPATH=PREFIX/lib/python python3 interior.py"""

from bagunjoki import Answer, Machine, Verb, Word, Zone

cell = Word()


def ask(what, machine, verb):
    reply = cell.ask(machine, verb, Zone.Z3)
    owner, posture = int(reply.owner or 0), int(reply.posture or 0)
    print(f"{what}: answer {int(reply.answer)}, owner {owner}, posture {posture}, stamp {reply.stamp}")
    return reply


ask("press claims", Machine.PRESS, Verb.CLAIM)
ask("robot claims", Machine.ROBOT, Verb.CLAIM)
ask("press releases", Machine.PRESS, Verb.RELEASE)
ask("robot claims", Machine.ROBOT, Verb.CLAIM)
assert ask("watch inquires", Machine.WATCH, Verb.INQUIRE).answer is Answer.SHOWN
cell.restamp(0)  # (a Word with renews=True does this by itself, after the last stamp)
ask("renewed, press claims", Machine.PRESS, Verb.CLAIM)
