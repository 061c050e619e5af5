//! A picture of the cell that loops: SVG whose animated attributes have a column of values each, of
//! frames at equal intervals. Hand-written and unproved.

use crate::cell::Cell;
use crate::interlock::*;
use std::fmt::Write as _;

/// The number of values of a column, less one.
const INTERVALS: usize = 100;

/// What the picture shows of a state.
pub struct Frame {
    pub state: State,
    /// Positions on the belts: of the entry's plate and of the end's.
    pub feed: [Option<i32>; 2],
    pub deposit: [Option<i32>; 2],
    pub feed_runs: bool,
    pub deposit_runs: bool,
    pub lift: i32,
    pub turn: i32,
    pub arm1: i32,
    pub arm2: i32,
    pub rotation: i32,
    pub press: i32,
    pub travel: i32,
    pub gripper: i32,
    /// The magnets of both arms and of the gripper.
    pub magnets: [bool; 3],
    /// Whether feed has just taken a plate from the crane.
    pub takes: bool,
}

impl Frame {
    pub fn of(cell: &Cell, state: State, runs: [bool; 2], takes: bool) -> Frame {
        let (table, robot, crane) = (&cell.table.program, &cell.robot.program, &cell.crane.program);
        let (feed, deposit) = (&cell.feed.program.belt, &cell.deposit.program.belt);
        Frame {
            state,
            feed: [feed.entry, feed.last],
            deposit: [deposit.entry, deposit.last],
            feed_runs: runs[0],
            deposit_runs: runs[1],
            lift: table.lift,
            turn: table.turn,
            arm1: robot.arm1,
            arm2: robot.arm2,
            rotation: robot.rotation,
            press: cell.press.program.position,
            travel: crane.travel,
            gripper: crane.gripper,
            magnets: [robot.grips1(), robot.grips2(), crane.grips()],
            takes,
        }
    }
}

/// Where a plate is: so far from the robot's axis in a direction, clockwise from the right, and from
/// there so far to the right and down.
struct Spot {
    angle: i32,
    reach: i32,
    right: i32,
    down: i32,
    is_forged: bool,
}

fn spot(angle: i32, reach: i32, right: i32, down: i32, is_forged: bool) -> Spot {
    Spot { angle, reach, right, down, is_forged }
}

fn at_table(right: i32) -> Spot {
    spot(-60, 136, right, 0, false)
}

fn in_press(is_forged: bool) -> Spot {
    spot(-180, 158, 0, 0, is_forged)
}

fn at_deposit(right: i32) -> Spot {
    spot(-300, 136, right, 0, true)
}

fn on_feed(position: i32) -> Spot {
    if position < 900 { at_table(350 - position * 8 / 25) } else { at_table(62 - (position.min(1000) - 900) * 31 / 50) }
}

fn on_deposit(position: i32) -> Spot {
    at_deposit(position.min(1000) * 7 / 20)
}

impl Frame {
    fn angle1(&self) -> i32 {
        -30 - self.rotation / 10
    }

    fn on_arm1(&self) -> Spot {
        spot(self.angle1(), 70 + self.arm1 * 11 / 100, 0, 0, false)
    }

    fn on_arm2(&self) -> Spot {
        spot(self.angle1() - 90, 70 + self.arm2 * 11 / 100, 0, 0, true)
    }

    /// How far the crane is above the deposit belt, in the picture.
    fn crane(&self) -> i32 {
        -self.travel * 59 / 500
    }

    fn at_crane(&self) -> Spot {
        spot(-300, 136, 350, self.crane(), true)
    }

    /// Where the plates are, in the order of their way from the feed belt's entry. A plate is on an
    /// arm or at the gripper while the magnet is on, else where it was put.
    fn plates(&self) -> Vec<Spot> {
        let State { zones, full, .. } = &self.state;
        let [grips1, grips2, grips] = self.magnets;
        let opens_out = zones[2].posture == Posture::OpenOut;
        let put = || spot(-300, 136, 350, -236, false);
        let stages = [
            (full[FEED_ENTRY], on_feed(self.feed[0].unwrap_or(0))),
            (full[FEED_END], on_feed(self.feed[1].unwrap_or(0))),
            (zones[0].flag, at_table(0)),
            (full[ON_TABLE], at_table(0)),
            (zones[1].flag, if grips1 { self.on_arm1() } else { at_table(0) }),
            (full[ON_ARM1], if grips1 { self.on_arm1() } else { in_press(false) }),
            (zones[2].flag && !opens_out, in_press(false)),
            (full[PRESS_IN], in_press(false)),
            (full[PRESS_OUT], in_press(true)),
            (zones[2].flag && opens_out, if grips2 { self.on_arm2() } else { in_press(true) }),
            (full[ON_ARM2], if grips2 { self.on_arm2() } else { at_deposit(0) }),
            (zones[3].flag, at_deposit(0)),
            (full[DEPOSIT_ENTRY], on_deposit(self.deposit[0].unwrap_or(0))),
            (full[DEPOSIT_END], on_deposit(self.deposit[1].unwrap_or(0))),
            (zones[4].flag, if grips { self.at_crane() } else { on_deposit(1000) }),
            (full[ON_CRANE], if grips { self.at_crane() } else { put() }),
            (zones[5].flag, put()),
        ];
        stages.into_iter().filter_map(|(is_there, spot)| is_there.then_some(spot)).collect()
    }
}

fn colour(owner: Option<Machine>) -> &'static str {
    match owner {
        None => "#ccc",
        Some(Machine::Feed) => "#07b",
        Some(Machine::Table) => "#0a7",
        Some(Machine::Robot) => "#ea0",
        Some(Machine::Press) => "#d50",
        Some(Machine::Deposit) => "#c7a",
        Some(Machine::Crane) => "#5be",
        Some(Machine::Watch) => "#999",
    }
}

/// The frames that are shown: from one plate that feed takes to the next, at equal intervals. With
/// fewer than two such plates it is the whole run.
fn sample(frames: &[Frame]) -> Vec<&Frame> {
    let takes: Vec<usize> = (0..frames.len()).filter(|at| frames[*at].takes).collect();
    let (from, to) = match takes[..] {
        [.., from, to] => (from, to - 1),
        _ => (0, frames.len() - 1),
    };
    (0..=INTERVALS).map(|at| &frames[from + (to - from) * at / INTERVALS]).collect()
}

/// The picture so far. Fixed texts and columns follow one another.
struct Picture<'a> {
    text: String,
    frames: Vec<&'a Frame>,
}

const REPEATS: &str = "dur=\"24s\" repeatCount=\"indefinite\" values=\"";

impl Picture<'_> {
    fn add_text(&mut self, text: &str) {
        self.text.push_str(text);
    }

    fn column(&mut self, value: impl Fn(&Frame) -> String) {
        let values: Vec<String> = self.frames.iter().map(|frame| value(frame)).collect();
        let _ = write!(self.text, "{}\"/>", values.join(";"));
    }

    /// An attribute of the element that is open.
    fn attribute(&mut self, name: &str, value: impl Fn(&Frame) -> String) {
        let _ = write!(self.text, "<animate attributeName=\"{name}\" {REPEATS}");
        self.column(value);
    }

    /// How the element that is open is moved or turned.
    fn transform(&mut self, kind: &str, value: impl Fn(&Frame) -> String) {
        let _ = write!(self.text, "<animateTransform attributeName=\"transform\" type=\"{kind}\" {REPEATS}");
        self.column(value);
    }

    fn belts(&mut self) {
        self.add_text("<rect x=\"362\" y=\"111\" width=\"354\" height=\"42\" rx=\"8\" fill=\"#e4e8ed\" stroke=\"#07b\">");
        self.attribute("stroke-width", |frame| if frame.feed_runs { "5" } else { "1" }.to_string());
        self.add_text("</rect><rect x=\"318\" y=\"347\" width=\"398\" height=\"42\" rx=\"8\" fill=\"#e4e8ed\" stroke=\"#c7a\">");
        self.attribute("stroke-width", |frame| if frame.deposit_runs { "5" } else { "1" }.to_string());
        self.add_text("</rect>");
    }

    fn zones(&mut self) {
        const PLACES: [(i32, i32, i32); 6] =
            [(370, 132, 34), (310, 167, 30), (104, 250, 46), (330, 368, 40), (680, 368, 37), (680, 132, 37)];
        for (number, (x, y, r)) in PLACES.into_iter().enumerate() {
            self.add_text(&format!("<circle cx=\"{x}\" cy=\"{y}\" r=\"{r}\" opacity=\".5\">"));
            self.attribute("fill", |frame| colour(frame.state.zones[number].owner).to_string());
            self.add_text("</circle>");
        }
    }

    fn table(&mut self) {
        self.add_text("<circle cx=\"330\" cy=\"132\" r=\"29\" fill=\"#fff\" stroke=\"#0a7\" stroke-width=\"3\"/>");
        self.add_text("<g transform=\"translate(330 132)\"><path d=\"M19 0h10\" stroke=\"#333\" stroke-width=\"6\">");
        self.transform("rotate", |frame| (frame.turn * 6 / 25).to_string());
        self.add_text("</path></g><path d=\"M280 80v48\" stroke=\"#bbb\" stroke-width=\"7\"/>");
        self.add_text("<rect x=\"272\" width=\"17\" height=\"8\" rx=\"2\" fill=\"#0a7\">");
        self.attribute("y", |frame| (124 - frame.lift * 2 / 25).to_string());
        self.add_text("</rect>");
    }

    fn press(&mut self) {
        self.add_text("<rect x=\"70\" y=\"216\" width=\"68\" height=\"68\" rx=\"6\" fill=\"#fff\" stroke=\"#d50\" stroke-width=\"3\"/>");
        self.add_text("<path d=\"M63 356v102\" stroke=\"#bbb\" stroke-width=\"14\"/>");
        self.add_text("<rect x=\"24\" y=\"342\" width=\"78\" height=\"14\" rx=\"3\" fill=\"#55606c\"/>");
        self.add_text("<rect x=\"24\" width=\"78\" height=\"10\" rx=\"3\" fill=\"#d50\">");
        self.attribute("y", |frame| (444 - frame.press * 19 / 250).to_string());
        self.add_text("</rect>");
    }

    fn arm(&mut self, width: i32, position: impl Fn(&Frame) -> i32) {
        let half = width / 2;
        let rail = format!("y=\"-{half}\" height=\"{width}\" rx=\"{half}\" fill=\"#ea0\"");
        self.add_text(&format!("<rect width=\"70\" {rail}/><g>"));
        self.transform("translate", |frame| (position(frame) * 11 / 100).to_string());
        self.add_text(&format!("<rect x=\"-20\" width=\"90\" {rail}/>"));
        self.add_text("<circle cx=\"70\" r=\"18\" fill=\"none\" stroke=\"#ea0\" stroke-width=\"3\"/></g>");
    }

    fn robot(&mut self) {
        self.add_text("<g transform=\"translate(262 250)\"><g>");
        self.transform("rotate", |frame| frame.angle1().to_string());
        self.add_text("<g transform=\"rotate(-90)\">");
        self.arm(14, |frame| frame.arm2);
        self.add_text("</g>");
        self.arm(18, |frame| frame.arm1);
        self.add_text("</g><circle r=\"24\" fill=\"#fff\" stroke=\"#ea0\" stroke-width=\"5\"/></g>");
    }

    fn crane(&mut self) {
        self.add_text("<path d=\"M680 98v304\" stroke=\"#55606c\" stroke-width=\"3\"/><g>");
        self.transform("translate", |frame| format!("0 {}", frame.crane()));
        self.add_text("<rect x=\"653\" y=\"357\" width=\"80\" height=\"22\" rx=\"5\" fill=\"#5be\" opacity=\".6\"/>");
        self.add_text("<circle cx=\"680\" cy=\"368\" r=\"19\" fill=\"none\" stroke=\"#5be\" stroke-width=\"3\"/></g>");
        self.add_text("<path d=\"M754 176v140\" stroke=\"#bbb\" stroke-width=\"7\"/>");
        self.add_text("<rect x=\"746\" width=\"17\" height=\"8\" rx=\"2\" fill=\"#5be\">");
        self.attribute("y", |frame| (312 - frame.gripper * 7 / 50).to_string());
        self.add_text("</rect>");
    }

    fn plate(&mut self, number: usize) {
        self.add_text("<g>");
        self.transform("translate", |frame| plate(frame, number, |spot| format!("{} {}", spot.right, spot.down)));
        self.add_text("<g transform=\"translate(262 250)\"><g>");
        self.transform("rotate", |frame| plate(frame, number, |spot| spot.angle.to_string()));
        self.add_text("<g>");
        self.transform("translate", |frame| plate(frame, number, |spot| spot.reach.to_string()));
        self.add_text("<circle r=\"14\" fill=\"#dfe4ea\" stroke=\"#16202c\" stroke-width=\"2\"/><circle r=\"12\" fill=\"#7a4b00\">");
        self.attribute("opacity", |frame| plate(frame, number, |spot| u8::from(spot.is_forged).to_string()));
        self.add_text("</circle></g></g></g></g>");
    }
}

/// Of the plate with this number; nothing if there is no such plate.
fn plate(frame: &Frame, number: usize, value: impl Fn(&Spot) -> String) -> String {
    frame.plates().get(number).map_or(String::new(), value)
}

const HEAD: &str = "<svg xmlns=\"http://www.w3.org/2000/svg\" viewBox=\"0 50 790 425\" font-family=\"sans-serif\" font-size=\"15\">\
<title>The production cell: plates go round</title><rect y=\"50\" width=\"790\" height=\"425\" rx=\"8\" fill=\"#fff\"/>";

const NAMES: &str = "<g fill=\"#16202c\" font-weight=\"bold\"><text x=\"470\" y=\"98\">feed belt</text>\
<text x=\"312\" y=\"90\">table</text><text x=\"350\" y=\"255\">robot</text><text x=\"82\" y=\"196\">press</text>\
<text x=\"470\" y=\"412\">deposit belt</text><text x=\"590\" y=\"255\">crane</text></g><g fill=\"#55606c\" text-anchor=\"middle\">\
<text x=\"410\" y=\"102\">z1</text><text x=\"268\" y=\"150\">z2</text><text x=\"104\" y=\"314\">z3</text>\
<text x=\"280\" y=\"373\">z4</text><text x=\"680\" y=\"422\">z5</text><text x=\"680\" y=\"88\">z6</text></g>\
<g fill=\"#55606c\" font-size=\"14\"><text x=\"16\" y=\"78\">A zone has the colour of</text>\
<text x=\"16\" y=\"96\">its owner, grey if it is free</text></g></svg>\n";

/// The whole picture.
pub fn picture(frames: &[Frame]) -> String {
    let mut picture = Picture { text: HEAD.to_string(), frames: sample(frames) };
    picture.belts();
    picture.zones();
    picture.table();
    picture.press();
    picture.robot();
    picture.crane();
    for number in 0..frames[0].plates().len() {
        picture.plate(number);
    }
    picture.add_text(NAMES);
    picture.text
}
