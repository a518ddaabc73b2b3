//! Tracks, widths and the ways of all arrows.

use super::super::fold::EMPTY_CHANNEL;
use super::super::graph::Arrow;
use super::super::measure::{DROP, LABEL_FACE, WIDEST_LABEL};
use super::super::nets::{Net, Side, Slot};
use super::super::ports::{EndKind, Wire};
use super::super::tracks::tracks;
use super::super::wrap::cut_off;
use super::frame::Frame;
use super::wires::wires;
use super::{Block, Label, Route};
use crate::text::check::Sheet;

/// The distance between tracks.
const TRACK: f64 = 2.3;
/// The room of an arrow's head before a card.
const HEAD: f64 = 5.0;
/// The room around a label on its line.
const AROUND_LABEL: f64 = 3.4;

/// How far below a card and its chips a drop's label stands.
const BELOW: f64 = 2.3;

/// A channel: its wires, their tracks, and its measures.
#[derive(Clone, Debug)]
struct Channel {
    wires: Vec<Wire>,
    tracks: Vec<Option<usize>>,
    count: usize,
    /// The room before the first track.
    left: f64,
    /// The room behind the last track.
    right: f64,
    /// The distance between tracks.
    pitch: f64,
    /// The width if there are no wires.
    empty: f64,
}

impl Channel {
    fn width(&self) -> f64 {
        if self.wires.is_empty() {
            return self.empty;
        }
        self.left + self.right + self.count.saturating_sub(1) as f64 * self.pitch
    }
}

/// All channels of a picture.
#[derive(Clone, Debug)]
pub struct Routing {
    channels: Vec<Channel>,
}

impl Routing {
    /// The channels of a frame whose boxes are settled.
    pub fn new(sheet: &Sheet, frame: &Frame) -> Routing {
        let channel = |wires: Vec<Wire>| {
            let (tracks, count) = tracks(&wires);
            let room = |side: Side| {
                let mut room: f64 = 2.5;
                for wire in &wires {
                    for end in wire.ends.iter().filter(|end| end.side == side) {
                        let wanted = match end.kind {
                            EndKind::Exit(_) => {
                                let text = label_text(sheet, frame.nets[wire.net].kind, WIDEST_LABEL);
                                LABEL_FACE.width(&text) + AROUND_LABEL
                            }
                            EndKind::Entry(_) => HEAD,
                            _ => 0.0,
                        };
                        room = room.max(wanted);
                    }
                }
                room
            };
            let (left, right) = (room(Side::Left), room(Side::Right));
            Channel {
                wires,
                tracks,
                count,
                left,
                right,
                pitch: TRACK,
                empty: EMPTY_CHANNEL,
            }
        };
        let mut channels: Vec<Channel> = wires(frame).into_iter().map(channel).collect();
        if let Some(last) = channels.last_mut() {
            last.empty = 0.0;
        }
        Routing { channels }
    }

    /// The width of the whole picture.
    pub fn width(&self, frame: &Frame) -> f64 {
        let channels: f64 = self.channels.iter().map(Channel::width).sum();
        channels + frame.card_width * frame.boxes.len() as f64
    }

    /// Shares out spare width among the channels: some to the tracks, the rest to both sides.
    pub fn widen(&mut self, spare: f64) {
        let used = self.channels.iter().filter(|channel| !channel.wires.is_empty());
        let inner = used.count().min(self.channels.len().saturating_sub(1));
        if spare <= 0.0 || inner == 0 {
            return;
        }
        let share = spare / inner as f64;
        for channel in self.channels[..inner].iter_mut() {
            if channel.wires.is_empty() {
                continue;
            }
            let gaps = channel.count.saturating_sub(1) as f64;
            let wider = (share / (gaps + 2.0)).min(1.4);
            channel.pitch += wider;
            let rest = share - wider * gaps;
            channel.left += rest / 2.0;
            channel.right += rest / 2.0;
        }
    }

    /// The left end of a column.
    pub fn column_x(&self, frame: &Frame, column: usize) -> f64 {
        let before: f64 = self.channels[..column].iter().map(Channel::width).sum();
        before + frame.card_width * column as f64
    }

    /// The left end of a channel.
    fn channel_x(&self, frame: &Frame, channel: usize) -> f64 {
        self.column_x(frame, channel) + frame.card_width
    }

    /// The place of a wire's track.
    fn track_x(&self, frame: &Frame, channel: usize, wire: usize) -> Option<f64> {
        let one = &self.channels[channel];
        let track = one.tracks[wire]?;
        Some(self.channel_x(frame, channel) + one.left + track as f64 * one.pitch)
    }

    /// The ways of the links of all nets, and the nets' labels.
    pub fn routes(&self, sheet: &Sheet, frame: &Frame) -> (Vec<Route>, Vec<Label>) {
        let (mut routes, mut labels) = (Vec::new(), Vec::new());
        for (number, net) in frame.nets.iter().enumerate() {
            if net.targets.is_empty() {
                continue;
            }
            self.follow(frame, number, net, &mut routes);
            let text = label_text(sheet, net.kind, WIDEST_LABEL);
            labels.push(self.label(frame, number, net, text));
        }
        (routes, labels)
    }

    /// The wire of a net in a channel.
    fn wire(&self, channel: usize, net: usize) -> Option<(usize, &Wire)> {
        let wires = self.channels[channel].wires.iter().enumerate();
        wires.into_iter().find(|(_, wire)| wire.net == net)
    }

    /// The first channel of a net.
    fn first_channel(frame: &Frame, net: &Net) -> usize {
        match net.side {
            Side::Right => frame.home[net.from],
            Side::Left => frame.home[net.from] - 1,
        }
    }

    /// Follows a net from channel to channel and notes the way to each target.
    fn follow(&self, frame: &Frame, number: usize, net: &Net, routes: &mut Vec<Route>) {
        let mut channel = Self::first_channel(frame, net);
        let mut way: Vec<(f64, f64)> = Vec::new();
        while let Some((wire_number, wire)) = self.wire(channel, number) {
            let left = self.channel_x(frame, channel);
            let right = left + self.channels[channel].width();
            let x = |side: Side| if side == Side::Left { left } else { right };
            let start = wire.ends[0];
            way.push((x(start.side), start.y));
            let mut onwards = None;
            for end in &wire.ends[1..] {
                let mut points = way.clone();
                if let Some(track) = self.track_x(frame, channel, wire_number) {
                    points.extend([(track, start.y), (track, end.y)]);
                }
                points.push((x(end.side), end.y));
                match end.kind {
                    EndKind::Entry(to) => routes.push(Route {
                        arrow: Arrow {
                            from: net.from,
                            kind: net.kind,
                            to,
                        },
                        points: without_straight(&points),
                    }),
                    _ => onwards = Some(points),
                }
            }
            match onwards {
                Some(points) => way = points,
                None => return,
            }
            channel = match net.side {
                Side::Right => channel + 1,
                Side::Left => channel - 1,
            };
        }
    }

    /// The label of a net, on its line where it leaves its card.
    fn label(&self, frame: &Frame, number: usize, net: &Net, text: String) -> Label {
        let channel = Self::first_channel(frame, net);
        let left = self.channel_x(frame, channel);
        let y = self.wire(channel, number).map_or(0.0, |(_, wire)| wire.ends[0].y);
        let (x, ends) = match net.side {
            Side::Right => (left + AROUND_LABEL / 2.0, false),
            Side::Left => (left + self.channels[channel].width() - AROUND_LABEL / 2.0, true),
        };
        Label {
            kind: net.kind,
            text,
            x,
            y,
            ends,
        }
    }

    /// The ways and labels of the drops.
    pub fn drops(&self, sheet: &Sheet, frame: &Frame, blocks: &[Block]) -> (Vec<Route>, Vec<Label>) {
        let (mut routes, mut labels) = (Vec::new(), Vec::new());
        for drop in &frame.drops {
            let (from, to) = (&blocks[drop.from].body, &blocks[drop.to].body);
            let x = from.x + from.width - DROP;
            let down = from.y < to.y;
            let points = if down {
                vec![(x, from.y + from.height), (x, to.y)]
            } else {
                vec![(x, from.y), (x, to.y + to.height)]
            };
            let (upper, lower) = if down {
                (drop.from, to.y)
            } else {
                (drop.to, from.y)
            };
            let column = frame.home[upper];
            let one = frame.find(Slot::Card(upper), column);
            labels.push(Label {
                kind: drop.kind,
                text: label_text(sheet, drop.kind, frame.card_width - DROP - 3.0),
                x: x - 1.6,
                y: one.top + one.height + BELOW.min((lower - one.top - one.height) / 2.0),
                ends: true,
            });
            routes.push(Route { arrow: *drop, points });
        }
        (routes, labels)
    }
}

/// The text of a label, as much of it as fits.
fn label_text(sheet: &Sheet, kind: usize, room: f64) -> String {
    cut_off(&sheet.text.kinds[kind].text, room, LABEL_FACE)
}

/// A way without corners at which it goes straight on.
fn without_straight(points: &[(f64, f64)]) -> Vec<(f64, f64)> {
    let same = |one: f64, two: f64| (one - two).abs() < 1e-6;
    let mut kept: Vec<(f64, f64)> = Vec::new();
    for point in points {
        if kept
            .last()
            .is_some_and(|last| same(last.0, point.0) && same(last.1, point.1))
        {
            continue;
        }
        if let [.., before, last] = kept[..] {
            let level = same(before.1, last.1) && same(last.1, point.1);
            let upright = same(before.0, last.0) && same(last.0, point.0);
            if level || upright {
                kept.pop();
            }
        }
        kept.push(*point);
    }
    kept
}
