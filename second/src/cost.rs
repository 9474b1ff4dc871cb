//! One call played many times, for counting instructions.

use std::hint::black_box;

use crate::octets::u32_at;
use crate::rules::port::Port;
use crate::rules::script::{read_record, records, Call, Player, MOST_ROOM};

/// The op of the record that ends the script: the number of plays (4), the op to play (1), its payload.
const TIMES: u8 = 12;

/// What a play adds to the check: the clock with the key's place or the frame's length, or the refusal.
fn played(port: &mut Port, call: &Call) -> Result<u64, u8> {
    Ok(match *call {
        Call::Receive { time, verdict, frame } => {
            let (place, _) = port.receive(time, verdict, frame)?.unwrap_or((0, 0));
            port.clock.wrapping_add(place as u64)
        }
        Call::Send { time, room, latest_pn, old_pn } => {
            let frame = port.send(time, room, latest_pn, old_pn)?;
            port.clock.wrapping_add(black_box(frame).len() as u64)
        }
        Call::Save { room } => black_box(port.save(room)?).len() as u64,
        Call::Show { image } => Port::read_image(image)?.clock,
        _ => 0,
    })
}

/// The sum over all plays, each on a copy of the participant as the script left it. Op 0 plays the copy alone, op 10 shows
/// the image of that participant. None where it isn't such a script.
pub fn cost(script: &[u8]) -> Option<u64> {
    let mut player = Player::default();
    for record in records(script) {
        if record[0] != TIMES {
            player.play(&read_record(record)?);
            continue;
        }
        let (times, rest) = record.get(3..)?.split_at_checked(5)?;
        return plays(&player.port?, u32_at(times, 0), times[4], rest);
    }
    None
}

fn plays(base: &Port, count: u32, op: u8, payload: &[u8]) -> Option<u64> {
    let image = base.save(MOST_ROOM).ok()?;
    let call = match op {
        0 => Call::Ask,
        10 => Call::Show { image: &image },
        _ => Call::read(op, payload)?,
    };
    let mut sum = 0u64;
    for _ in 0..count {
        let mut port = black_box(base).clone();
        let played = if op == 0 { Ok(port.clock) } else { played(&mut port, &call) };
        sum = sum.wrapping_add(played.unwrap_or_else(u64::from));
        black_box(&port);
    }
    Some(sum)
}
