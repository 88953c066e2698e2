//! What a run met of the calls with cables: the lines of each row, and what they were met with.

use crate::model::cables::{End, Found, Refusal, Table, SLOTS};
use crate::model::{Answer, Call, Next, Owner, Stage};

points! {
    LayBadSame = "lay: 23, both numbers the same",
    LayBadShort = "lay: 23, a table or record too short",
    LayTakenFull = "lay: 25, no slot free",
    LaySameLent = "lay: done, both ends lent the same record",
    LayOverJunk = "lay: done, over a slot of other numbers",
    LayAfterOthers = "lay: done, above other cables",
    LayClosing = "lay: done, at a port whose close is under way",
    CutFirst = "cut: done, from the first number",
    CutSecond = "cut: done, from the second number",
    CutSeveral = "cut: done, several slots",
    CutClosing = "cut: done, at a port whose close is under way",
    SendFirst = "send: from the first number",
    SendSecond = "send: from the second number",
    SendNoHint = "send: no hint",
    SendHintRight = "send: hint right",
    SendHintHigher = "send: hint right, not the lowest slot",
    SendHintWrong = "send: hint wrong, another cable",
    SendHintFree = "send: hint wrong, a free slot",
    SendHintOutside = "send: hint above 1,024",
    SendBusy = "send: a call of the near domain under way",
    SendClosing = "send: from a port whose close is under way",
    SendSame = "send: to the near domain itself",
    FarBegun = "far raise: begun",
    FarUnderWay = "far raise: 15",
    FarClosing = "far raise: 15, the port's own close",
    FarNotGiven = "far raise: 10",
    FarBadPort = "far raise: 3",
    FarNoEntry = "far raise: 14",
    FarNotBound = "far raise: 4",
    FarOutside = "far raise: 6",
    FarShort = "far raise: 64",
    CloseCuts = "close: at once, cuts",
    CloseAlone = "close: at once, no cable",
    CloseOther = "close: at once, 40 or more that wraps to a cable",
    CloseRefused = "close: refused, a cable stands",
    CloseBegun = "close: begun, a cable stands",
    CloseShortTable = "close: 64, table",
    CloseShortRecord = "close: 64, record",
    ReplyCuts = "reply to close: cuts",
    ReplyAlone = "reply to close: no cable",
    ReplyRefused = "reply to close: 14, a cable stands",
    ReplyAgain = "reply to close: cuts after a 14",
    ReplyOther = "reply to close: 40 or more that wraps to a cable",
    ReplyHighPort = "reply to close: port from 2^20 on wraps to a cable",
    ReplyNotClose = "reply to another call: 0, a cable stands",
    ReplyOtherStage = "reply to owner 2, later stage: 0, a cable stands",
    ReplyNoCall = "reply: 16",
    ReplyShortTable = "reply: 64, table",
    ReplyShortRecord = "reply: 64, record",
}

/// Counts of the lines of a row, its last for the call that is done.
type Row<const N: usize> = [u64; N];

/// What a run met.
#[derive(Clone, Debug)]
pub struct Met {
    /// Calls with cables.
    pub calls: u64,
    lay: Row<{ Refusal::LAY.len() + 1 }>,
    cut: Row<{ Refusal::NEAR.len() + 1 }>,
    send: Row<{ Refusal::NEAR.len() + 1 }>,
    points: [u64; POINTS.len()],
}

impl Default for Met {
    fn default() -> Self {
        Met {
            calls: 0,
            lay: [0; Refusal::LAY.len() + 1],
            cut: [0; Refusal::NEAR.len() + 1],
            send: [0; Refusal::NEAR.len() + 1],
            points: [0; POINTS.len()],
        }
    }
}

/// What stood at the end that a close or a reply is about, before it.
#[derive(Clone, Copy)]
pub struct Standing {
    /// Whether a cable stood there.
    pub cable: bool,
    /// Whether one stood where domain and port, as one number of 32 bits, would lead.
    pub wrapped: bool,
}

impl Met {
    /// Counts a lay.
    pub fn note_lay(&mut self, outcome: &Result<usize, Refusal>) {
        self.calls += 1;
        self.lay[line(&Refusal::LAY, outcome.err())] += 1;
    }

    /// Counts a cut.
    pub fn note_cut(&mut self, outcome: &Result<(), Refusal>) {
        self.calls += 1;
        self.cut[line(&Refusal::NEAR, outcome.err())] += 1;
    }

    /// Counts a send.
    pub fn note_send(&mut self, outcome: &Result<Found, Refusal>) {
        self.calls += 1;
        self.send[line(&Refusal::NEAR, outcome.err())] += 1;
    }

    /// Counts a point.
    pub fn meet(&mut self, point: Point) {
        self.points[point as usize] += 1;
    }

    /// Counts a point where it is met.
    pub fn meet_if(&mut self, met: bool, point: Point) {
        self.points[point as usize] += u64::from(met);
    }

    /// Counts the hint of a send that came through.
    pub fn note_hint(&mut self, table: &Table, near: End, found: &Found, hint: u32) {
        let hinted = table.slots().get(hint as usize);
        let lowest = table.lowest(near) == Some(found.slot);
        let point = match hinted.map(|slot| slot.cable()) {
            None if hint as usize == SLOTS => Point::SendNoHint,
            None => Point::SendHintOutside,
            Some(_) if !lowest => Point::SendHintHigher,
            Some(_) if found.slot == hint as usize => Point::SendHintRight,
            Some(Some(_)) => Point::SendHintWrong,
            Some(None) => Point::SendHintFree,
        };
        self.meet(point);
    }

    /// Counts what a far raise gave; none is 64. The call was under way in the far domain.
    pub fn note_far(&mut self, port: u32, call: Option<Call>, next: Option<Next>) {
        let closing = call.is_some_and(|call| is_close_of(&call, port));
        let point = match next {
            Some(Next::Access(_)) => Point::FarBegun,
            Some(Next::Answer(Answer::UnderWay, _)) if closing => Point::FarClosing,
            Some(Next::Answer(Answer::UnderWay, _)) => Point::FarUnderWay,
            Some(Next::Answer(Answer::NotGiven, _)) => Point::FarNotGiven,
            Some(Next::Answer(Answer::BadPort, _)) => Point::FarBadPort,
            Some(Next::Answer(Answer::NoEntry, _)) => Point::FarNoEntry,
            Some(Next::Answer(Answer::NotBound, _)) => Point::FarNotBound,
            Some(Next::Answer(_, _)) => Point::FarOutside,
            None => Point::FarShort,
        };
        self.meet(point);
    }

    /// Counts a close.
    pub fn note_close(&mut self, standing: Standing, next: Next) {
        self.calls += 1;
        match (next, standing.cable) {
            (Next::Answer(Answer::Done, _), true) => self.meet(Point::CloseCuts),
            (Next::Answer(Answer::Done, _), false) => {
                self.meet(Point::CloseAlone);
                self.meet_if(standing.wrapped, Point::CloseOther);
            }
            (Next::Answer(..), true) => self.meet(Point::CloseRefused),
            (Next::Access(_), true) => self.meet(Point::CloseBegun),
            _ => {}
        }
    }

    /// Counts a reply to a call; `again` where one was refused with 14 before.
    pub fn note_reply(&mut self, call: &Call, standing: Standing, next: Next, again: bool) {
        self.calls += 1;
        let done = matches!(next, Next::Answer(Answer::Done, _));
        match (call.stage, standing.cable) {
            (Stage::CloseAnd, true) if done => {
                self.meet(Point::ReplyCuts);
                self.meet_if(again, Point::ReplyAgain);
            }
            (Stage::CloseAnd, true) => self.meet(Point::ReplyRefused),
            (Stage::CloseAnd, false) if done => {
                self.meet(Point::ReplyAlone);
                let high = call.port.0 >> 20 != 0;
                self.meet_if(standing.wrapped && high, Point::ReplyHighPort);
                self.meet_if(standing.wrapped && !high, Point::ReplyOther);
            }
            (_, true) if done && call.owner == Owner::Close => self.meet(Point::ReplyOtherStage),
            (_, true) if done => self.meet(Point::ReplyNotClose),
            _ => {}
        }
    }

    /// Adds the counts of another run.
    pub fn add(&mut self, other: &Met) {
        self.calls += other.calls;
        let add = |to: &mut [u64], from: &[u64]| to.iter_mut().zip(from).for_each(|(a, b)| *a += b);
        add(&mut self.lay, &other.lay);
        add(&mut self.cut, &other.cut);
        add(&mut self.send, &other.send);
        add(&mut self.points, &other.points);
    }

    /// Everything that must be met, with how often it was; the same order for every run.
    pub fn counts(&self) -> Vec<(String, u64)> {
        let mut counts = Vec::new();
        let mut row = |name: &str, lines: &[Refusal], times: &[u64]| {
            let lines = lines.iter().map(|line| line.to_string());
            let lines = lines.chain(["done".to_string()]);
            let named = lines.map(|line| format!("{name}: {line}"));
            counts.extend(named.zip(times.iter().copied()));
        };
        row("lay", &Refusal::LAY, &self.lay);
        row("cut", &Refusal::NEAR, &self.cut);
        row("send", &Refusal::NEAR, &self.send);
        let points = POINTS.iter().map(|(_, name)| name.to_string());
        counts.extend(points.zip(self.points));
        counts
    }
}

/// The place of a refusal in its row; the last for none.
fn line(lines: &[Refusal], refusal: Option<Refusal>) -> usize {
    let place = |refusal| lines.iter().position(|line| *line == refusal);
    refusal.and_then(place).unwrap_or(lines.len())
}

/// Whether the call is a close of the port.
pub fn is_close_of(call: &Call, port: u32) -> bool {
    call.stage == Stage::CloseAnd && call.port.0 == port
}
