//! The words of calls and answers, as in scripts and their answers.

use crate::interlock::{Answer, Call, Pose, Refusal, Zone, owner_word};
use std::fmt::{Display, Formatter, Result};

impl Display for Call {
    fn fmt(&self, text: &mut Formatter<'_>) -> Result {
        let (verb, zone): (&str, Zone) = match *self {
            Call::Claim(zone) => ("claim", zone),
            Call::Give(zone) => ("give", zone),
            Call::Yield(zone) => ("yield", zone),
            Call::Take(zone) => ("take", zone),
            Call::Release(zone) => ("release", zone),
            Call::Inquire(zone) => ("inquire", zone),
            Call::SetPose(pose) => return write!(text, "pose {}", pose.word()),
            Call::Advance => return text.write_str("advance"),
            Call::Stop => return text.write_str("stop"),
            Call::Resume => return text.write_str("resume"),
        };
        write!(text, "{verb} {}", zone.word())
    }
}

impl Pose {
    fn word(self) -> &'static str {
        Pose::WORDS.iter().find(|(_, pose)| *pose == self).map_or("", |(word, _)| word)
    }
}

impl Display for Answer {
    fn fmt(&self, text: &mut Formatter<'_>) -> Result {
        match *self {
            Answer::Done => text.write_str("done"),
            Answer::Shown(at) => {
                write!(text, "zone {} {} {}", owner_word(at.owner), u8::from(at.flag), at.posture.word())
            }
            Answer::Refused(refusal) => write_refusal(text, refusal),
        }
    }
}

fn write_refusal(text: &mut Formatter<'_>, refusal: Refusal) -> Result {
    text.write_str(match refusal {
        Refusal::Held(machine) => return write!(text, "held {}", machine.word()),
        Refusal::NotOwner(owner) => return write!(text, "notowner {}", owner_word(owner)),
        Refusal::Shut(posture) => return write!(text, "shut {}", posture.word()),
        Refusal::PlateIn(zone) => return write!(text, "platein {}", zone.word()),
        Refusal::NotParty => "notparty",
        Refusal::Already => "already",
        Refusal::NoPlate => "noplate",
        Refusal::PlaceFull => "placefull",
        Refusal::WrongWay => "wrongway",
        Refusal::Jump => "jump",
        Refusal::NotAtWork => "notatwork",
        Refusal::NoPose => "nopose",
        Refusal::Worn => "worn",
        Refusal::Stopped => "stopped",
        Refusal::NotStopped => "notstopped",
        Refusal::InUse => "inuse",
    })
}
