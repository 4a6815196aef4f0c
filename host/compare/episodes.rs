//! The plays. An episode is one seed: it loads a fresh image and plays a few of these, each with random parameters, on whatever tag the
//! one before left.

use crate::frames::{self, with_crc, AUTHENTICATE, FAST_READ, INCR_CNT, KNOWN, PROOF, READ, READ_CNT, WRITE};
use crate::images::{self, Image, COUNTER_MAX};
use crate::pair::{Lens, Pair};
use crate::player::{Player, Step};
use crate::random::Random;
use rust_tag::c_form::{CHALLENGED, RECORD_LEN};
use rust_tag::tag::State;

type Play = fn(&mut Player) -> Step;

const PLAYS: [Play; 19] = [
    wander, wander, wander, wander, climb, lock_bits, protection, random_id, counters, keys, frame_lengths, states_and_commands, odd_records,
    odd_lengths, files, readings, check_bytes, windows, barred,
];

/// Plays the episode of this seed.
pub fn play(pair: &mut Pair, seed: u64) -> Step {
    let mut r = Random::new(seed);
    pair.begin(&mut r);
    let mut player = Player { r, pair };
    let image = if player.r.chance(50) { Image::wild(&mut player.r) } else { Image::open(&mut player.r) };
    player.load(&image)?;
    for _ in 0..1 + player.r.below(4) {
        player.r.pick(&PLAYS)(&mut player)?;
    }
    Ok(())
}

/// A tag without protection or locks; `change` sets what the play is about.
fn fresh(p: &mut Player, change: impl FnOnce(&mut Random, &mut Image)) -> Step {
    let mut image = Image::open(&mut p.r);
    change(&mut p.r, &mut image);
    p.load(&image)?;
    p.select()
}

/// Mostly right commands as they come, from a fresh image in most cases.
fn wander(p: &mut Player) -> Step {
    if p.r.chance(60) {
        let image = Image::wild(&mut p.r);
        p.load(&image)?;
    }
    for _ in 0..20 + p.r.below(60) {
        let (waiting, chance) = (p.pair.record().state == State::Waiting, p.r.below(100));
        match chance {
            0..=84 if waiting => p.select()?,
            0 => p.power()?,
            1 => p.select()?,
            2 => p.save()?,
            3..=5 => {
                let plain = frames::usual(&mut p.r, &p.pair.view());
                let frame = frames::damaged(&mut p.r, &with_crc(&plain));
                p.raw(&frame).map(drop)?;
            }
            _ => p.made(frames::usual).map(drop)?,
        }
    }
    Ok(())
}

/// Wrong proofs up to the limit, tries beyond it, a raised limit, and right proofs down again.
fn climb(p: &mut Player) -> Step {
    let limit = p.r.pick(&[1, 2, 3, 5, 18, 34, 500, 1022, 1023]);
    fresh(p, |r, image| {
        image.limit(limit);
        image.failed(limit.saturating_sub(1 + r.below(4) as u16));
    })?;
    for _ in 0..6 {
        let key = p.r.below(3) as u8;
        if p.r.chance(20) { p.login(key).map(drop)? } else { p.false_login(key)? }
        if p.r.chance(15) {
            spoilt_proof(p)?;
        }
    }
    p.awake()?;
    let raised = p.r.pick(&[0, limit + 1, limit + 40, 1023]).min(1023).to_le_bytes();
    p.write(0x2A, [0x0C, 0x05, raised[0], raised[1]])?;
    for _ in 0..p.r.below(5) {
        let key = p.r.below(3) as u8;
        p.login(key)?;
    }
    limit_at_part_2(p)
}

/// A part 2 that is no proof at all: it may not raise the count.
fn spoilt_proof(p: &mut Player) -> Step {
    p.awake()?;
    let key = p.r.below(3) as u8;
    if p.challenge(key)?.is_none() {
        return Ok(());
    }
    let plain = [vec![PROOF], p.r.bytes(32)].concat();
    if p.r.chance(50) {
        let resized = frames::resized(&mut p.r, &plain);
        return p.send(&resized).map(drop);
    }
    let frame = frames::damaged(&mut p.r, &with_crc(&plain));
    p.raw(&frame).map(drop)
}

/// Between the parts no frame can bring the count to the limit; a caller who changes the record or the store can.
fn limit_at_part_2(p: &mut Player) -> Step {
    let key = p.r.below(3) as u8;
    p.forge_state(CHALLENGED, key);
    if p.r.chance(50) {
        let limit = p.pair.view().limit();
        p.forge_failed(limit.max(1).min(1023));
    } else {
        p.forge_page(0x2A, 2, &[1, 0]);
        p.forge_failed(1);
    }
    match frames::some_proof(&mut p.r, &p.pair.view(), 70) {
        Some(proof) => p.send(&proof).map(drop),
        None => Ok(()),
    }
}

/// Lock bits set one after the other, block bits among them, and writes to the pages they lock.
fn lock_bits(p: &mut Player) -> Step {
    fresh(p, |_, _| ())?;
    for _ in 0..4 + p.r.below(12) {
        p.awake()?;
        let page = p.r.pick(&[0x02, 0x28]);
        let data = [p.r.few_bits(), p.r.few_bits(), p.r.few_bits(), p.r.few_bits()];
        p.write(page, data)?;
        for _ in 0..p.r.below(4) {
            p.awake()?;
            let page = if page == 0x02 { 0x03 + p.r.below(13) } else { 0x10 + p.r.below(24) } as u8;
            let data = (p.r.next() as u32).to_le_bytes();
            p.write(page, data)?;
        }
    }
    p.awake()?;
    p.send(&[FAST_READ, 0x02, 0x28]).map(drop)
}

/// Reading and writing around AUTH0, with PROT and without, after each kind of login and after none.
fn protection(p: &mut Player) -> Step {
    let any = p.r.below(0x3D) as u8;
    let auth0 = p.r.pick(&[any, any, any, 0x00, 0x02, 0x3B]);
    let high_bit = p.r.pick(&[0, 0x80]);
    fresh(p, |r, image| {
        image.set(0x29, 3, &[auth0 | high_bit]);
        image.set(0x2A, 0, &[r.pick(&[0x0C, 0x8C])]);
    })?;
    for _ in 0..10 {
        p.some_login()?;
        p.awake()?;
        let near = |r: &mut Random| auth0.saturating_sub(1) + r.below(3) as u8;
        match p.r.below(4) {
            0 => {
                let (page, data) = (near(&mut p.r), (p.r.next() as u32).to_le_bytes());
                p.write(page, data)?;
            }
            1 => {
                let page = near(&mut p.r).saturating_sub(3);
                p.send(&[READ, page])?;
            }
            2 => {
                let end = near(&mut p.r);
                let start = p.r.below(usize::from(end) + 1) as u8;
                p.send(&[FAST_READ, start, end])?;
            }
            _ => {
                let page = p.r.below(0x3C) as u8;
                let data = frames::write_data(&mut p.r, &p.pair.view(), page);
                p.write(page, data)?;
            }
        }
    }
    Ok(())
}

/// WRITEs that one rule bars, or several: AUTH0 over locks of each kind and over the Random ID bit, after each login and after none. The
/// frame behind a refusal is sent without a selection: it may tell no reason.
fn barred(p: &mut Player) -> Step {
    fresh(p, |r, image| {
        image.set(0x02, 2, &[r.pick(&[0, 0xF8]), r.pick(&[0, 0xFF])]);
        image.set(0x28, 0, &[r.pick(&[0, 0xFF]), r.pick(&[0, 0x0F])]);
        image.set(0x29, 0, &[r.pick(&[0, 1])]);
        image.set(0x29, 3, &[r.pick(&[0x00, 0x10, 0x29, 0x2A, 0x34, 0x3C, 0x3C])]);
        image.set(0x2A, 0, &[r.pick(&[0x0C, 0x4C])]);
        image.set(0x2D, 0, &[r.pick(&[0x00, 0x20, 0x40, 0x80, 0xE0])]);
    })?;
    for _ in 0..12 {
        p.some_login()?;
        p.awake()?;
        let (own, pair, key) = (0x03 + p.r.below(13), 0x10 + p.r.below(24), 0x30 + p.r.below(8));
        let page = p.r.pick(&[own, pair, key, 0x29, 0x29, 0x2A, 0x2D]) as u8;
        let data = frames::write_data(&mut p.r, &p.pair.view(), page);
        p.write(page, data)?;
        p.made(frames::usual)?;
    }
    Ok(())
}

/// READ from every page, up to AUTH0 and past it and at the end of the memory, with Random ID and without, after each login and after none.
fn windows(p: &mut Player) -> Step {
    let any = p.r.below(0x3D) as u8;
    let auth0 = p.r.pick(&[any, any, any, 0x00, 0x01, 0x02, 0x03, 0x04, 0x3B, 0x3C]);
    fresh(p, |r, image| {
        image.set(0x03, 0, &r.bytes(4));
        image.set(0x29, 0, &[r.pick(&[0, 1])]);
        image.set(0x29, 3, &[auth0 | r.pick(&[0, 0x80])]);
        image.set(0x2A, 0, &[r.pick(&[0x0C, 0x8C, 0x8C])]);
    })?;
    for _ in 0..12 {
        p.some_login()?;
        p.awake()?;
        let (any, low) = (p.r.below(0x3D) as u8, p.r.below(4) as u8);
        let page = p.r.pick(&[any, auth0.saturating_sub(low), 0x3B - low, low]);
        p.send(&[READ, page])?;
    }
    Ok(())
}

/// The serial number hidden and shown, and the bit that decides it changed where that is allowed and where not.
fn random_id(p: &mut Player) -> Step {
    fresh(p, |r, image| {
        image.set(0x29, 0, &[r.pick(&[1, 1, 3, 0])]);
        image.set(0x29, 3, &[r.pick(&[0x3C, 0x3C, 0x29, 0x2A])]);
        image.set(0x2A, 0, &[r.pick(&[0x0C, 0x0C, 0x0C, 0x4C])]);
    })?;
    for _ in 0..8 {
        p.some_login()?;
        p.awake()?;
        let start = p.r.below(4) as u8;
        let end = start + p.r.below(3) as u8;
        if p.r.chance(50) { p.send(&[READ, start])? } else { p.send(&[FAST_READ, start, end])? };
        p.awake()?;
        let first = p.r.pick(&[0, 1, 2, 3]);
        let auth0 = p.r.pick(&[0x3C, 0x3C, 0x29]);
        p.write(0x29, [first, 0, 0, auth0])?;
    }
    Ok(())
}

/// Counters near their end, counter 2 behind each of its settings.
fn counters(p: &mut Player) -> Step {
    fresh(p, |r, image| {
        let bits = r.pick(&[0x00, 0x04, 0x08, 0x0C]);
        image.set(0x2A, 0, &[bits]);
        for k in 0..3 {
            let left = r.pick(&[0, 1, 2, 3, 255, 256, 65535, 65536]);
            image.counter(k, COUNTER_MAX - left);
        }
    })?;
    for _ in 0..10 {
        p.some_login()?;
        p.awake()?;
        let number = p.r.pick(&[0, 1, 2, 2, 2]);
        p.send(&[READ_CNT, number])?;
        p.awake()?;
        p.made(frames::raise_counter)?;
        p.awake()?;
        let step = p.r.pick(&[0, 1, 2, 255]);
        let fourth = p.r.byte();
        p.send(&[INCR_CNT, number, step, 0, 0, fourth])?;
    }
    Ok(())
}

/// Keys written page by page, used, locked, and used again.
fn keys(p: &mut Player) -> Step {
    if p.r.chance(70) {
        fresh(p, |_, _| ())?;
    }
    for _ in 0..2 {
        p.awake()?;
        let number = p.r.below(2) as u8;
        let skipped = p.r.below(6) as u8;
        for page in (0..4).filter(|&page| page != skipped) {
            let data = (p.r.next() as u32).to_le_bytes();
            p.write(0x30 + 4 * number + page, data)?;
            p.awake()?;
        }
        p.login(number)?;
        p.false_login(number)?;
        p.awake()?;
        if p.r.chance(60) {
            let any = p.r.byte();
            let locks = [p.r.pick(&[0x00, 0x20, 0x40, 0x80, 0xC0, 0xE0, any]), p.r.byte(), 0, 0];
            p.write(0x2D, locks)?;
        }
        p.awake()?;
        let start = 0x2C + p.r.below(10) as u8;
        p.send(&[READ, start])?;
    }
    let number = p.r.below(3) as u8;
    p.login(number).map(drop)
}

/// Frames of every length from 0 to 70, with right CRC and with wrong, also between the parts of a login.
fn frame_lengths(p: &mut Player) -> Step {
    let any = p.r.byte();
    let code = if p.r.chance(85) { p.r.pick(&KNOWN).0 } else { any };
    let first = p.r.below(3);
    for len in (first..=70).step_by(1 + p.r.below(3)) {
        p.awake()?;
        if code == PROOF && p.r.chance(70) {
            let key = p.r.below(3) as u8;
            p.challenge(key)?;
        }
        let mut plain = p.r.bytes(len.max(2) - 2);
        if let Some(byte) = plain.first_mut() {
            *byte = code;
        }
        let frame = with_crc(&plain);
        let frame = &frame[..len.min(frame.len())];
        if len > 0 && p.r.chance(30) {
            let mut frame = frame.to_vec();
            let at = p.r.below(len);
            frame[at] ^= 1 << p.r.below(8);
            p.raw(&frame)?;
        } else {
            p.raw(frame)?;
        }
    }
    Ok(())
}

/// Every state with every command, the state made up by the caller; sometimes damaged, resized, or with one buffer of a wrong length.
fn states_and_commands(p: &mut Player) -> Step {
    for _ in 0..40 {
        let (any, state) = (p.r.byte(), p.r.pick(&[0, 1, 2, 3, 4, 4, 4, 5]));
        let key = p.r.pick(&[0, 1, 2]);
        match state {
            CHALLENGED => p.forge_state(state, key),
            5 if p.r.chance(50) => p.forge_state(CHALLENGED, any.max(3)),
            5 => p.forge_state(any.max(5), key),
            // a key number that is not used may be any
            _ => p.forge_state(state, if any % 2 == 0 { 0 } else { any }),
        }
        if p.r.chance(10) {
            outside_frames(p)?;
        }
        let code = p.r.pick(&[READ, FAST_READ, WRITE, READ_CNT, INCR_CNT, AUTHENTICATE, AUTHENTICATE, PROOF, PROOF, 0x50, any]);
        let mut plain = frames::of_code(&mut p.r, &p.pair.view(), code);
        if p.r.chance(15) {
            plain = frames::resized(&mut p.r, &plain);
        }
        let mut frame = with_crc(&plain);
        match p.r.below(20) {
            0..=2 => frame = frames::damaged(&mut p.r, &frame),
            3 => frame.clear(),
            _ => (),
        }
        if p.r.chance(25) { with_wrong_length(p, &frame)? } else { p.raw(&frame).map(drop)? }
    }
    Ok(())
}

/// The other calls in whatever state there is.
fn outside_frames(p: &mut Player) -> Step {
    match p.r.below(6) {
        0 => p.power(),
        1 => p.select(),
        2 => {
            let image = Image::wild(&mut p.r);
            p.load(&image)
        }
        _ => p.save(),
    }
}

/// A frame with one buffer of a length that is 10.
fn with_wrong_length(p: &mut Player, frame: &[u8]) -> Step {
    let mut lens = Lens::RIGHT;
    match p.r.below(4) {
        0 => lens.record = p.r.pick(&[0, 1, 47, 49, 64]),
        1 => lens.store = p.r.pick(&[0, 1, 239, 241, 300]),
        2 => lens.reply = p.r.pick(&[0, 1, 2, 16, 241]),
        _ => lens.random = p.r.pick(&[0, 1, 15, 17, 32]),
    }
    let random = p.r.block();
    p.pair.frame(&mut p.r, frame, &random, lens).map(drop)
}

/// One thing that no tag's record has.
fn spoil_record(p: &mut Player) {
    let (any, wide) = (p.r.byte(), p.r.next());
    match p.r.below(5) {
        0 | 1 => {
            let k = p.r.below(3);
            let high = (wide as u32).max(COUNTER_MAX + 1);
            let value = p.r.pick(&[COUNTER_MAX + 1, u32::MAX, 0x8000_0000, high]);
            p.forge_counter(k, value);
        }
        2 => {
            let count = p.r.pick(&[1024, 0xFFFF, 0x0400, 0x8000, (wide as u16).max(1024)]);
            p.forge_failed(count);
        }
        3 => {
            let state = p.r.pick(&[5, 6, 0x80, 0xFF, any.max(5)]);
            p.forge_state(state, any);
        }
        _ => {
            let key = p.r.pick(&[3, 4, 0xFF, any.max(3)]);
            p.forge_state(CHALLENGED, key);
        }
    }
}

/// Records that no tag has, in every call. Power and Select take them; what they keep is mended afterwards.
fn odd_records(p: &mut Player) -> Step {
    for _ in 0..12 {
        let good = p.pair.buffer();
        spoil_record(p);
        if p.r.chance(15) {
            spoil_record(p);
        }
        match p.r.below(10) {
            0 | 1 => p.power()?,
            2 | 3 => p.select()?,
            4 | 5 => p.save()?,
            6 if p.r.chance(50) => p.pair.load(&Image::wild(&mut p.r).0, Lens::RIGHT).map(drop)?,
            6 => p.pair.load(&images::refused(&mut p.r), Lens::RIGHT).map(drop)?,
            _ => p.made(frames::usual).map(drop)?,
        }
        if p.r.chance(10) {
            // any bytes at all
            let any = p.r.bytes(RECORD_LEN);
            p.pair.put_record(&any);
            p.made(frames::usual)?;
            p.select()?;
        }
        p.pair.put_record(&good);
        p.made(frames::usual)?;
    }
    Ok(())
}

/// Each call with one buffer of a wrong length, sometimes with two.
fn odd_lengths(p: &mut Player) -> Step {
    for _ in 0..16 {
        let mut lens = Lens::RIGHT;
        let record = p.r.pick(&[0, 1, 47, 49, 64]);
        let store = p.r.pick(&[0, 1, 239, 241, 300]);
        match p.r.below(8) {
            0..=3 => lens.record = record,
            4..=5 => lens.store = store,
            6 => (lens.record, lens.store) = (record, store),
            _ => lens.file = p.r.pick(&[0, 1, 270]),
        }
        match p.r.below(10) {
            0 => p.pair.power(Lens { record, ..lens }).map(drop)?,
            1 => p.pair.select(Lens { record, ..lens }).map(drop)?,
            2 => p.pair.load(&Image::wild(&mut p.r).0, lens).map(drop)?,
            3 => p.pair.load(&images::refused(&mut p.r), lens).map(drop)?,
            4..=7 => p.pair.save(&mut p.r, lens).map(drop)?,
            _ => {
                let frame = with_crc(&frames::usual(&mut p.r, &p.pair.view()));
                with_wrong_length(p, &frame)?;
            }
        }
        p.made(frames::usual)?;
    }
    Ok(())
}

/// Images refused, images written, and a written image loaded again.
fn files(p: &mut Player) -> Step {
    for _ in 0..6 {
        match p.r.below(4) {
            0 => p.pair.load(&images::refused(&mut p.r), Lens::RIGHT).map(drop)?,
            1 => {
                let image = Image::wild(&mut p.r).0;
                let double = [image, image].concat();
                let len = p.r.pick(&[0, 1, 270, 271, 272, 542]);
                p.pair.load(&double[..len], Lens::RIGHT).map(drop)?;
            }
            2 => p.save()?,
            _ => {
                p.awake()?;
                p.made(frames::write)?;
                p.made(frames::raise_counter)?;
                p.save_and_load()?;
            }
        }
        p.awake()?;
        p.made(frames::usual)?;
    }
    Ok(())
}

/// Reading of any range, after each kind of login and after none.
fn readings(p: &mut Player) -> Step {
    for _ in 0..15 {
        if p.r.chance(30) {
            p.some_login()?;
        }
        p.awake()?;
        let start = p.r.below(0x3C) as u8;
        let end = start + p.r.below(0x3C - usize::from(start)) as u8;
        match p.r.below(10) {
            0..=2 => p.send(&[READ, start])?,
            3 => p.send(&[FAST_READ, 0x00, 0x3B])?,
            _ => p.send(&[FAST_READ, start, end])?,
        };
    }
    Ok(())
}

/// Wrong check bytes in the store: frames send and keep them as they are, a writing takes them into the image, and only a loading refuses
/// them. The plays behind this one go on with what is left.
fn check_bytes(p: &mut Player) -> Step {
    if p.r.chance(70) {
        fresh(p, |r, image| image.set(0x29, 0, &[r.pick(&[0, 0, 1])]))?;
    }
    for _ in 0..4 {
        p.forge_serial();
        p.some_login()?;
        p.awake()?;
        let start = p.r.below(3) as u8;
        if p.r.chance(50) { p.send(&[READ, start])? } else { p.send(&[FAST_READ, start, 0x02])? };
        p.awake()?;
        let data = [p.r.byte(), p.r.byte(), p.r.few_bits(), p.r.few_bits()];
        p.write(0x02, data)?;
        p.made(frames::usual)?;
        if p.r.chance(70) { p.save_and_load()? } else { p.save()? }
    }
    Ok(())
}
