//! Both programs under one trait, each answering in the library's own terms.

use crate::told;
use orlyukan::{
    Arrived, Cut, CutPacket, Entry, Forgot, Header, Joined, Order, Reading, Recording, Refusal, Returned, Route, Salvaged,
    SegmentCounter, Sender, Sent, SequenceCount, Settings, Taken, Which, Written,
};

/// The values of a packet beside its header's.
#[derive(Clone, Copy, Debug)]
pub struct Numbers {
    pub flags: u64,
    pub sequence_count: SequenceCount,
    pub counter: SegmentCounter,
}

pub trait Calls {
    fn name(&self) -> &'static str;
    fn next_sequence_count(&self, sequence_count: SequenceCount) -> Result<SequenceCount, Refusal>;
    fn after_packet(&self, sender: Sender) -> Result<Sender, Refusal>;
    fn after_segment(&self, sender: Sender) -> Result<Sender, Refusal>;
    fn read(&self, s: Settings, packet: &[u8]) -> Reading;
    fn write(&self, s: Settings, header: &Header, numbers: Numbers, body: &[u8], out: &mut [u8]) -> Written;
    fn cut_count(&self, s: Settings, p: u64, header: &Header, body_length: u64, sender: Sender) -> Cut;
    #[allow(clippy::too_many_arguments)]
    fn cut_packet(
        &self,
        s: Settings,
        p: u64,
        header: &Header,
        body: &[u8],
        sender: Sender,
        i: u64,
        out: &mut [u8],
    ) -> CutPacket;
    fn in_order(&self, s: Settings, store: &[u8]) -> Order;
    fn arrive(&self, s: Settings, store: &mut [u8], packet: &[u8]) -> Arrived;
    fn take(&self, s: Settings, store: &mut [u8], out: &mut [u8]) -> Taken;
    fn forget(&self, s: Settings, store: &mut [u8], number: u64) -> Forgot;
    fn join(&self, s: Settings, store: &mut [u8], packet: &[u8], out: &mut [u8]) -> Joined;
    fn view<'a>(&self, packet: &'a [u8], joined: &'a [u8], which: Which, place: u64, length: u64) -> &'a [u8];
    fn join_recording(&self, s: Settings, recording: &[u8], out: &mut [u8]) -> Recording;
    fn salvage(&self, s: Settings, file: &[u8], begin: u64, place: u64, grant: u64, list: &mut [Entry]) -> Salvaged;
    fn to_pdu(&self, s: Settings, message: &[u8], encoding_id: u64, out: &mut [u8]) -> Sent;
    fn to_message(&self, s: Settings, pdu: &[u8], route: Route, out: &mut [u8]) -> Returned;
}

/// The proved library, through its wrappers.
pub struct Library;

impl Calls for Library {
    fn name(&self) -> &'static str {
        "the library"
    }

    fn next_sequence_count(&self, sequence_count: SequenceCount) -> Result<SequenceCount, Refusal> {
        orlyukan::next_sequence_count(sequence_count)
    }

    fn after_packet(&self, sender: Sender) -> Result<Sender, Refusal> {
        orlyukan::after_packet(sender)
    }

    fn after_segment(&self, sender: Sender) -> Result<Sender, Refusal> {
        orlyukan::after_segment(sender)
    }

    fn read(&self, s: Settings, packet: &[u8]) -> Reading {
        orlyukan::read(s, packet)
    }

    fn write(&self, s: Settings, header: &Header, n: Numbers, body: &[u8], out: &mut [u8]) -> Written {
        orlyukan::write(s, header, n.flags, n.sequence_count, n.counter, body, out)
    }

    fn cut_count(&self, s: Settings, p: u64, header: &Header, body_length: u64, sender: Sender) -> Cut {
        orlyukan::cut_count(s, p, header, body_length, sender)
    }

    fn cut_packet(
        &self,
        s: Settings,
        p: u64,
        header: &Header,
        body: &[u8],
        sender: Sender,
        i: u64,
        out: &mut [u8],
    ) -> CutPacket {
        orlyukan::cut_packet(s, p, header, body, sender, i, out)
    }

    fn in_order(&self, s: Settings, store: &[u8]) -> Order {
        orlyukan::in_order(s, store)
    }

    fn arrive(&self, s: Settings, store: &mut [u8], packet: &[u8]) -> Arrived {
        orlyukan::arrive(s, store, packet)
    }

    fn take(&self, s: Settings, store: &mut [u8], out: &mut [u8]) -> Taken {
        orlyukan::take(s, store, out)
    }

    fn forget(&self, s: Settings, store: &mut [u8], number: u64) -> Forgot {
        orlyukan::forget(s, store, number)
    }

    fn join(&self, s: Settings, store: &mut [u8], packet: &[u8], out: &mut [u8]) -> Joined {
        orlyukan::join(s, store, packet, out)
    }

    fn view<'a>(&self, packet: &'a [u8], joined: &'a [u8], which: Which, place: u64, length: u64) -> &'a [u8] {
        orlyukan::view(packet, joined, which, place, length)
    }

    fn join_recording(&self, s: Settings, recording: &[u8], out: &mut [u8]) -> Recording {
        orlyukan::join_recording(s, recording, out)
    }

    fn salvage(&self, s: Settings, file: &[u8], begin: u64, place: u64, grant: u64, list: &mut [Entry]) -> Salvaged {
        orlyukan::salvage(s, file, begin, place, grant, list)
    }

    fn to_pdu(&self, s: Settings, message: &[u8], encoding_id: u64, out: &mut [u8]) -> Sent {
        orlyukan::to_pdu(s, message, encoding_id, out)
    }

    fn to_message(&self, s: Settings, pdu: &[u8], route: Route, out: &mut [u8]) -> Returned {
        orlyukan::to_message(s, pdu, route, out)
    }
}

/// The model, its answers told in the library's terms.
pub struct Model;

fn model_sender(sender: Sender) -> model::Sender {
    model::Sender { sequence_count: sender.sequence_count.0, counter: sender.counter.0 }
}

impl Calls for Model {
    fn name(&self) -> &'static str {
        "the model"
    }

    fn next_sequence_count(&self, sequence_count: SequenceCount) -> Result<SequenceCount, Refusal> {
        model::next_sequence_count(sequence_count.0).map(SequenceCount).map_err(told::refusal)
    }

    fn after_packet(&self, sender: Sender) -> Result<Sender, Refusal> {
        model::after_packet(model_sender(sender)).map(told::sender).map_err(told::refusal)
    }

    fn after_segment(&self, sender: Sender) -> Result<Sender, Refusal> {
        model::after_segment(model_sender(sender)).map(told::sender).map_err(told::refusal)
    }

    fn read(&self, s: Settings, packet: &[u8]) -> Reading {
        told::reading(s.t, model::read(told::settings(s), packet))
    }

    fn write(&self, s: Settings, header: &Header, n: Numbers, body: &[u8], out: &mut [u8]) -> Written {
        told::written(model::write(
            told::settings(s),
            &told::values(header),
            n.flags,
            n.sequence_count.0,
            n.counter.0,
            body,
            out,
        ))
    }

    fn cut_count(&self, s: Settings, p: u64, header: &Header, body_length: u64, sender: Sender) -> Cut {
        told::cut(sender, model::count(told::settings(s), p, &told::values(header), body_length, model_sender(sender)))
    }

    fn cut_packet(
        &self,
        s: Settings,
        p: u64,
        header: &Header,
        body: &[u8],
        sender: Sender,
        i: u64,
        out: &mut [u8],
    ) -> CutPacket {
        let made = model::packet(told::settings(s), p, &told::values(header), body, model_sender(sender), i, out);
        told::cut_packet(sender, made)
    }

    fn in_order(&self, s: Settings, store: &[u8]) -> Order {
        told::order(model::in_order(told::settings(s), store))
    }

    fn arrive(&self, s: Settings, store: &mut [u8], packet: &[u8]) -> Arrived {
        told::arrived(model::arrive(told::settings(s), store, packet))
    }

    fn take(&self, s: Settings, store: &mut [u8], out: &mut [u8]) -> Taken {
        told::taken(model::take(told::settings(s), store, out))
    }

    fn forget(&self, s: Settings, store: &mut [u8], number: u64) -> Forgot {
        told::forgot(model::forget(told::settings(s), store, number))
    }

    fn join(&self, s: Settings, store: &mut [u8], packet: &[u8], out: &mut [u8]) -> Joined {
        told::joined(model::join(told::settings(s), store, packet, out))
    }

    fn view<'a>(&self, packet: &'a [u8], joined: &'a [u8], which: Which, place: u64, length: u64) -> &'a [u8] {
        let which = match which {
            Which::Nothing => model::Which::Nothing,
            Which::Packet => model::Which::Packet,
            Which::Joined => model::Which::Joined,
        };
        model::view(packet, joined, which, place, length)
    }

    fn join_recording(&self, s: Settings, recording: &[u8], out: &mut [u8]) -> Recording {
        match model::join_recording(told::settings(s), recording, out.len()) {
            Err(refusal) => Recording { refusal: refusal.number.into(), written: 0, place: 0, stop: None },
            Ok(messages) => {
                out[..messages.len()].copy_from_slice(&messages);
                told::recording(messages.len(), model::recording_end(recording))
            }
        }
    }

    fn salvage(&self, s: Settings, file: &[u8], begin: u64, place: u64, grant: u64, list: &mut [Entry]) -> Salvaged {
        told::salvaged(file.len(), list, model::salvage(told::settings(s), file, begin, place, grant, list.len()))
    }

    fn to_pdu(&self, s: Settings, message: &[u8], encoding_id: u64, out: &mut [u8]) -> Sent {
        told::sent(model::to_pdu(told::settings(s), message, encoding_id, out))
    }

    fn to_message(&self, s: Settings, pdu: &[u8], route: Route, out: &mut [u8]) -> Returned {
        told::returned(model::to_message(told::settings(s), pdu, told::route(route), out))
    }
}
