//! The octets of the protocol as the original's types, and back.
use super::opened::{
    inactivity::{ArqInactivity, StatusResult, TransactionToken},
    procedure::{ReceiveEvent, StatusTransmission},
};
use crate::{
    link::{
        rach::{ArqStatus, MobileIdentity},
        spach::{
            Channel, HeaderFlags, SingleMessage, SpachError,
            arq::{
                ArqFrame, ArqHeader, CONTINUE_DATA_BITS, Reception, ResponseMode, StatusRequest,
                fragment_message,
            },
        },
    },
    phy::control::INFORMATION_BITS,
};

/// A frame on the air, its three bits of padding among them.
pub const FRAME_OCTETS: usize = 14;
/// The operands of a header and of a frame, and how an answer has a frame.
pub const HEADER_OCTETS: usize = 5;
pub const PARSED_OCTETS: usize = 36;
/// The operand of a transmission.
pub const TRANSMISSION_OCTETS: usize = 16;
const RECEPTION_OCTETS: usize = 22;
const DELIVERY_OCTETS: usize = 13;
const STATUS_OCTETS: usize = 6;
const TIMER_OCTETS: usize = 34;
const RECEIVE_OCTETS: usize = 31;
const BEGIN_OCTETS: usize = 7;
const CONTINUE_OCTETS: usize = 10;

/// The bits of the octets, first bit at the top of the first octet. The lengths agree: 8 bits for each octet.
pub fn unpack(octets: &[u8], bits: &mut [bool]) {
    assert_eq!(bits.len(), 8 * octets.len());
    for (octet, bits) in octets.iter().zip(bits.chunks_exact_mut(8)) {
        for (place, bit) in bits.iter_mut().enumerate() {
            *bit = octet & (0x80 >> place) != 0;
        }
    }
}
pub fn pack(bits: &[bool], octets: &mut [u8]) {
    assert_eq!(bits.len(), 8 * octets.len());
    for (octet, bits) in octets.iter_mut().zip(bits.chunks_exact(8)) {
        *octet = bits
            .iter()
            .fold(0, |value, bit| value << 1 | u8::from(*bit));
    }
}
pub fn unpack_frame(octets: &[u8]) -> [bool; 8 * FRAME_OCTETS] {
    let mut bits = [false; 8 * FRAME_OCTETS];
    unpack(octets, &mut bits);
    bits
}

/// The bits of `encode` in octets, the padding zero.
pub fn pack_frame(bits: &[bool; INFORMATION_BITS]) -> [u8; FRAME_OCTETS] {
    let mut padded = [false; 8 * FRAME_OCTETS];
    padded[..INFORMATION_BITS].copy_from_slice(bits);
    let mut octets = [0; FRAME_OCTETS];
    pack(&padded, &mut octets);
    octets
}
/// Bits in octets, zeros after them.
fn packed<const OCTETS: usize>(bits: &[bool]) -> [u8; OCTETS] {
    std::array::from_fn(|index| octet(bits, index))
}
/// One octet of some bits, zeros after them.
pub fn octet(bits: &[bool], index: usize) -> u8 {
    (8 * index..8 * index + 8).fold(0, |octet, place| {
        octet << 1 | u8::from(bits.get(place).is_some_and(|bit| *bit))
    })
}

/// `None` if the octets name no header.
pub fn header(octets: [u8; HEADER_OCTETS]) -> Option<ArqHeader> {
    let [usage, flags, partial_echo, polling, response_mode] = octets;
    Some(ArqHeader {
        channel: channel(usage)?,
        flags: header_flags(flags)?,
        partial_echo,
        polling: flag(polling)?,
        response_mode: mode(response_mode)?,
    })
}
/// `None` if the octet names no channel.
pub fn channel(usage: u8) -> Option<Channel> {
    Some(match usage {
        3 => Channel::Arch,
        4 => Channel::Smsch,
        7 => Channel::Pch,
        _ => return None,
    })
}
fn mode(octet: u8) -> Option<ResponseMode> {
    Some(match flag(octet)? {
        false => ResponseMode::Contention,
        true => ResponseMode::Reservation,
    })
}
fn flag(octet: u8) -> Option<bool> {
    (octet < 2).then_some(octet == 1)
}
fn header_flags(octet: u8) -> Option<HeaderFlags> {
    (octet < 16).then_some(HeaderFlags {
        pch_continuation: octet & 8 != 0,
        bcch_change: octet & 4 != 0,
        paging_frame_modifier: octet & 2 != 0,
        reservation_response: octet & 1 != 0,
    })
}
fn header_octets(header: &ArqHeader) -> [u8; HEADER_OCTETS] {
    [
        header.channel as u8,
        flags(header.flags),
        header.partial_echo,
        u8::from(header.polling),
        mode_octet(header.response_mode),
    ]
}

/// `None` if the octets name no frame; the fields of the other kind must name one too.
pub fn frame(octets: &[u8; PARSED_OCTETS]) -> Option<ArqFrame> {
    let header = header(*octets[1..].first_chunk()?)?;
    let identity = identity(octets[6], u64::from_be_bytes(*octets[7..].first_chunk()?))?;
    match octets[0] {
        0 => {
            let mut data = unpacked(&octets[17..17 + BEGIN_OCTETS]);
            data.resize(usize::from(octets[16]), false);
            Some(ArqFrame::Begin {
                header,
                identity,
                message_octets: octets[15],
                data,
            })
        }
        1 => Some(ArqFrame::Continue {
            header,
            identity_type: octets[24],
            frame_number: octets[25],
            data: unpacked(&octets[26..])[..CONTINUE_DATA_BITS]
                .try_into()
                .expect("79 of 80 bits"),
        }),
        _ => None,
    }
}
fn unpacked(octets: &[u8]) -> Vec<bool> {
    let mut bits = vec![false; 8 * octets.len()];
    unpack(octets, &mut bits);
    bits
}
/// A frame as an answer has it: the fields of the other kind and unread bits are zero.
pub fn frame_octets(frame: &ArqFrame) -> [u8; PARSED_OCTETS] {
    let mut octets = [0; PARSED_OCTETS];
    let (kind, header) = match frame {
        ArqFrame::Begin { header, .. } => (0, header),
        ArqFrame::Continue { header, .. } => (1, header),
    };
    octets[0] = kind;
    octets[1..6].copy_from_slice(&header_octets(header));
    match frame {
        ArqFrame::Begin {
            identity,
            message_octets,
            data,
            ..
        } => {
            let (kind, _, value) = identity.parts();
            octets[6] = kind;
            octets[7..15].copy_from_slice(&value.to_be_bytes());
            octets[15] = *message_octets;
            octets[16] = u8::try_from(data.len()).expect("the data of a frame");
            octets[17..24].copy_from_slice(&packed::<BEGIN_OCTETS>(data));
        }
        ArqFrame::Continue {
            identity_type,
            frame_number,
            data,
            ..
        } => {
            octets[24] = *identity_type;
            octets[25] = *frame_number;
            octets[26..].copy_from_slice(&packed::<CONTINUE_OCTETS>(data));
        }
    }
    octets
}

/// The frames of a message, each as an answer has it; `None` if it is not cut.
pub fn cut(
    header_operand: [u8; HEADER_OCTETS],
    identity_operand: [u8; 9],
    message: &[u8],
) -> Option<Vec<[u8; PARSED_OCTETS]>> {
    let [kind, value @ ..] = identity_operand;
    let identity = identity(kind, u64::from_be_bytes(value))?;
    let frames = fragment_message(header(header_operand)?, identity, message).ok()?;
    Some(frames.iter().map(frame_octets).collect())
}

/// A reception as an answer has it.
pub fn reception_octets(reception: &Reception) -> [u8; RECEPTION_OCTETS] {
    let mut octets = [0; RECEPTION_OCTETS];
    let Reception::Accepted {
        message,
        status_request,
    } = reception
    else {
        return octets;
    };
    octets[0] = 1;
    octets[1..14].copy_from_slice(&delivery_octets(message.as_ref()));
    if let Some(request) = status_request {
        octets[14..20].copy_from_slice(&status_octets(Some(&request.status)));
        octets[20] = mode_octet(request.response_mode);
    }
    octets
}
/// Message 0 or 1, and what is told of it beside its octets.
fn delivery_octets(message: Option<&SingleMessage>) -> [u8; DELIVERY_OCTETS] {
    let mut octets = [0; DELIVERY_OCTETS];
    if let Some(delivered) = message {
        let (kind, _, value) = delivered.identity.parts();
        octets[..4].copy_from_slice(&[1, delivered.channel as u8, flags(delivered.flags), kind]);
        octets[4..12].copy_from_slice(&value.to_be_bytes());
        octets[12] = u8::try_from(delivered.message.len()).expect("255 octets at most");
    }
    octets
}
/// Held, echo and map: bit k of the map, from the lowest, is frame k.
pub fn status_octets(status: Option<&ArqStatus>) -> [u8; STATUS_OCTETS] {
    let mut octets = [0; STATUS_OCTETS];
    if let Some(status) = status {
        let frames = status.received_frames.iter().rev();
        let map = frames.fold(0u32, |map, received| map << 1 | u32::from(*received));
        octets[..2].copy_from_slice(&[1, status.partial_echo]);
        octets[2..].copy_from_slice(&map.to_be_bytes());
    }
    octets
}
/// The upper six bits of the map are of no frame.
pub fn status(partial_echo: u8, map: u32) -> ArqStatus {
    ArqStatus {
        partial_echo,
        received_frames: std::array::from_fn(|frame| map >> frame & 1 != 0),
    }
}
fn mode_octet(mode: ResponseMode) -> u8 {
    u8::from(mode == ResponseMode::Reservation)
}

/// A timer, whose counter has this next number, as an answer has it.
pub fn timer_octets(timer: &ArqInactivity, next: u64) -> [u8; TIMER_OCTETS] {
    let mut octets = [0; TIMER_OCTETS];
    let (state, since) = timer.state();
    octets[0] = state;
    octets[1..9].copy_from_slice(&since.to_be_bytes());
    octets[9..17].copy_from_slice(&timer.last_block().to_be_bytes());
    octets[17] = u8::from(timer.unsolicited_pending());
    octets[18..26].copy_from_slice(&timer.token().number().to_be_bytes());
    octets[26..].copy_from_slice(&next.to_be_bytes());
    octets
}
/// `None` if the octet names no result.
pub fn status_result(octet: u8) -> Option<StatusResult> {
    Some(match flag(octet)? {
        false => StatusResult::Sent,
        true => StatusResult::Failed,
    })
}
/// `None` if the octets name no transmission; `token` gives that of a number.
pub fn transmission(
    octets: &[u8; TRANSMISSION_OCTETS],
    token: impl FnOnce(u64) -> TransactionToken,
) -> Option<StatusTransmission> {
    let map = u32::from_be_bytes(*octets[1..].first_chunk()?);
    let request = StatusRequest {
        status: status(octets[0], map),
        response_mode: mode(octets[5])?,
    };
    let (unsolicited, complete_at_poll) = (flag(octets[14])?, flag(octets[15])?);
    let token = token(u64::from_be_bytes(*octets[6..].first_chunk()?));
    let made_up = StatusTransmission::new(request, token, unsolicited, complete_at_poll);
    Some(made_up)
}
/// Present, and a transmission as its operand.
pub fn transmission_octets(
    transmission: Option<&StatusTransmission>,
) -> [u8; 1 + TRANSMISSION_OCTETS] {
    let mut octets = [0; 1 + TRANSMISSION_OCTETS];
    if let Some(transmission) = transmission {
        let request = &transmission.request;
        octets[..6].copy_from_slice(&status_octets(Some(&request.status)));
        octets[6] = mode_octet(request.response_mode);
        octets[7..15].copy_from_slice(&transmission.token().number().to_be_bytes());
        octets[15] = u8::from(transmission.unsolicited());
        octets[16] = u8::from(transmission.complete_at_poll());
    }
    octets
}
/// What a procedure made of a frame, as an answer has it.
pub fn receive_octets(event: &ReceiveEvent) -> [u8; RECEIVE_OCTETS] {
    let mut octets = [0; RECEIVE_OCTETS];
    if let ReceiveEvent::Accepted { message, status } = event {
        octets[0] = 1;
        octets[1..14].copy_from_slice(&delivery_octets(message.as_ref()));
        octets[14..].copy_from_slice(&transmission_octets(status.as_ref()));
    }
    octets
}

/// `None` if the Rust type cannot hold the pair.
pub fn identity(kind: u8, value: u64) -> Option<MobileIdentity> {
    Some(match kind {
        0 => MobileIdentity::Tmsi20(u32::try_from(value).ok()?),
        1 => MobileIdentity::Tmsi24(u32::try_from(value).ok()?),
        2 => MobileIdentity::Min34(value),
        3 => MobileIdentity::Imsi50(value),
        _ => return None,
    })
}
/// The original's width of an identity of this type, 0 to 3.
pub fn identity_width(kind: u8) -> usize {
    identity(kind, 0).expect("a type from 0 to 3").parts().1
}
pub fn flags(flags: HeaderFlags) -> u8 {
    u8::from(flags.pch_continuation) << 3
        | u8::from(flags.bcch_change) << 2
        | u8::from(flags.paging_frame_modifier) << 1
        | u8::from(flags.reservation_response)
}
/// The number that document 01 gives a refusal.
pub fn number(error: SpachError) -> u8 {
    match error {
        SpachError::Length => 1,
        SpachError::Identity => 2,
        SpachError::UnsupportedUsage => 3,
        SpachError::UnsupportedFrame => 4,
        SpachError::Encrypted => 5,
        SpachError::Reserved => 6,
        SpachError::Filler => 7,
        SpachError::NeedsContinuation | SpachError::MissingBegin | SpachError::ChannelChange => {
            panic!("{error:?} has no number in document 01")
        }
        SpachError::PartialEcho => 11,
        SpachError::FrameNumber => 12,
        SpachError::Payload => 13,
        SpachError::DuplicateConflict => 14,
    }
}
