//! A tester with both tags in front of it: single steps from which `episodes.rs` makes its plays.

use crate::frames::{self, with_crc, AUTHENTICATE};
use crate::images::{self, Image};
use crate::pair::{Difference, Lens, Pair};
use crate::random::Random;
use rust_tag::aes::{Aes128, Block, BLOCK};
use rust_tag::c_form::{CHALLENGE_AT, FAILED_AT, KEY_NUMBER_AT, STATE_AT};
use rust_tag::tag::{State, IMAGE_LEN, REPLY_LEN};

pub type Step = Result<(), Difference>;

pub struct Player<'a> {
    pub r: Random,
    pub pair: &'a mut Pair,
}

impl Player<'_> {
    // ---- events and images

    pub fn load(&mut self, image: &Image) -> Step {
        self.pair.load(&image.0, Lens::RIGHT).map(drop)
    }

    pub fn power(&mut self) -> Step {
        self.pair.power(Lens::RIGHT).map(drop)
    }

    pub fn select(&mut self) -> Step {
        self.pair.select(Lens::RIGHT).map(drop)
    }

    /// Goes on after a refusal, which leaves the tag WAITING.
    pub fn awake(&mut self) -> Step {
        if self.pair.record().state == State::Waiting { self.select() } else { Ok(()) }
    }

    /// Writes an image into a buffer that is sometimes longer.
    pub fn save(&mut self) -> Step {
        let any = 271 + self.r.below(300);
        let file = self.r.pick(&[271, 271, 272, 542, any]);
        self.pair.save(&mut self.r, Lens { file, ..Lens::RIGHT }).map(drop)
    }

    /// Writes an image and loads it again. It is refused if the check bytes in the store were changed behind the tag's back.
    pub fn save_and_load(&mut self) -> Step {
        self.pair.save(&mut self.r, Lens::RIGHT)?;
        let written: [u8; IMAGE_LEN] = std::array::from_fn(|i| self.pair.file()[i]);
        self.load(&Image(written))
    }

    // ---- frames

    /// Sends bytes as they are, with room for the reply that is sometimes more than needed.
    pub fn raw(&mut self, frame: &[u8]) -> Result<u8, Difference> {
        let random = self.r.block();
        let reply = REPLY_LEN + self.r.pick(&[0, 0, 0, 1, 58]);
        let answer = self.pair.frame(&mut self.r, frame, &random, Lens { reply, ..Lens::RIGHT })?;
        Ok(answer as u8)
    }

    pub fn send(&mut self, plain: &[u8]) -> Result<u8, Difference> {
        self.raw(&with_crc(plain))
    }

    pub fn write(&mut self, page: u8, data: [u8; 4]) -> Result<u8, Difference> {
        self.send(&frames::write_of(page, data))
    }

    /// A frame made with a look at the tag.
    pub fn made(&mut self, maker: fn(&mut Random, &frames::View) -> Vec<u8>) -> Result<u8, Difference> {
        let plain = maker(&mut self.r, &self.pair.view());
        self.send(&plain)
    }

    // ---- logins

    /// Part 1 as a reader sees it: the challenge deciphered from the reply. None if it was refused.
    pub fn challenge(&mut self, number: u8) -> Result<Option<(Block, Block)>, Difference> {
        if self.send(&[AUTHENTICATE, number])? != 0 {
            return Ok(None);
        }
        let key = self.pair.view().key(number);
        let cipher: Block = std::array::from_fn(|i| self.pair.reply()[1 + i]);
        let mut text = cipher;
        Aes128::new(&key).cbc_decrypt(&[0; BLOCK], &mut text);
        Ok(Some((key, text)))
    }

    /// A whole login with the right key; true if the tag took it.
    pub fn login(&mut self, number: u8) -> Result<bool, Difference> {
        self.awake()?;
        let Some((key, challenge)) = self.challenge(number)? else { return Ok(false) };
        let proof = frames::right_proof(&mut self.r, &key, &challenge);
        Ok(self.send(&proof)? == 0)
    }

    pub fn false_login(&mut self, number: u8) -> Step {
        self.awake()?;
        if let Some((key, challenge)) = self.challenge(number)? {
            let proof = frames::false_proof(&mut self.r, &key, &challenge);
            self.send(&proof)?;
        }
        Ok(())
    }

    /// ACTIVE, TRACEABLE or AUTHENTICATED, as a reader gets there.
    pub fn some_login(&mut self) -> Step {
        match self.r.below(4) {
            0 => self.login(0).map(drop),
            1 => self.login(1).map(drop),
            2 => self.login(2).map(drop),
            _ => self.select(),
        }
    }

    // ---- records that the caller made up

    /// Any state with the stored values as they are. State bytes from 5 on don't exist.
    pub fn forge_state(&mut self, state: u8, key: u8) {
        let mut record = self.pair.buffer();
        record[STATE_AT] = state;
        record[KEY_NUMBER_AT] = key;
        record[CHALLENGE_AT..].fill(0);
        if state == 4 || self.r.chance(30) {
            self.r.fill(&mut record[CHALLENGE_AT..]);
        }
        self.pair.put_record(&record);
    }

    pub fn forge_failed(&mut self, count: u16) {
        let mut record = self.pair.buffer();
        record[FAILED_AT..FAILED_AT + 2].copy_from_slice(&count.to_le_bytes());
        self.pair.put_record(&record);
    }

    pub fn forge_counter(&mut self, k: usize, value: u32) {
        let mut record = self.pair.buffer();
        record[4 * k..4 * (k + 1)].copy_from_slice(&value.to_le_bytes());
        self.pair.put_record(&record);
    }

    /// Puts bytes into a page behind the tag's back.
    pub fn forge_page(&mut self, page: usize, from: usize, bytes: &[u8]) {
        let mut store = self.pair.view().store.to_vec();
        store[4 * page + from..4 * page + from + bytes.len()].copy_from_slice(bytes);
        self.pair.put_store(&store);
    }

    /// Check bytes that are not the serial number's, behind the tag's back.
    pub fn forge_serial(&mut self) {
        let mut store = self.pair.view().store.to_vec();
        images::put_check_bytes(&mut store);
        images::spoil_serial(&mut self.r, &mut store);
        self.pair.put_store(&store);
    }
}
