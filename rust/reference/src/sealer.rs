//! A sealer issues nonces in batches of 1,024, each batch from one raise of its mark store, and hands out a draft under each. A draft
//! collects header and message in pieces and gives the tag at its end.

use std::ops::Range;

use crate::chm::TagKeys;
use crate::cipher::BlockCipher;
use crate::keystream;
use crate::limits;
use crate::refusal::{DOWN, OUTPUT_LENGTH, Refusal};
use crate::store::{MarkStore, RaiseFault};

/// How many nonces a batch has.
pub const BATCH: u64 = 1_024;

/// A cipher, a mark store, whether the sealer is live, and what is left of its batch.
pub struct Sealer<S: MarkStore> {
    cipher: Box<dyn BlockCipher>,
    store: S,
    live: bool,
    /// The nonces that are not given out yet; empty where there is no batch.
    left: Range<u64>,
}

impl<S: MarkStore> Sealer<S> {
    /// A live sealer without a batch, over a store in whatever state.
    pub fn new(cipher: Box<dyn BlockCipher>, store: S) -> Self {
        Sealer { cipher, store, live: true, left: 0..0 }
    }

    /// A draft under the next nonce. The tests are, in this order: 4, 21, and what a raise reports, 22 or 23.
    pub fn begin(&mut self, tag_len: usize) -> Result<Draft, Refusal> {
        limits::tag(tag_len)?;
        if !self.live {
            return Err(Refusal::plain(DOWN));
        }
        let nonce = self.next_nonce()?;
        Ok(Draft::new(self.cipher(), nonce, tag_len))
    }

    /// Restarts the store; the sealer is live again, and what was left of the batch is dropped.
    pub fn restart(&mut self, power: u32, leftover: u8) {
        self.store.restart(power, leftover);
        self.live = true;
        self.left = 0..0;
    }

    /// Seals in one call, with the ciphertext in `out`. The tests are, in this order: 4, 1, 3, 2, and then what begin can still refuse.
    pub fn seal(&mut self, tag_len: usize, header: &[u8], message: &[u8], out: &mut [u8]) -> Result<Sealed, Refusal> {
        limits::tag(tag_len)?;
        limits::header(header.len())?;
        same_length(message, out)?;
        limits::message(message.len())?;
        let mut draft = self.begin(tag_len)?;
        draft.head(header)?;
        draft.body(self.cipher(), message, out)?;
        Ok(draft.finish())
    }

    /// The cipher, for the calls that want one.
    pub fn cipher(&self) -> &dyn BlockCipher {
        self.cipher.as_ref()
    }

    /// The store, to look at.
    pub fn store(&self) -> &S {
        &self.store
    }

    /// Whether the sealer is live; otherwise it is down.
    pub fn is_live(&self) -> bool {
        self.live
    }

    /// The nonces of the present batch that are not given out yet.
    pub fn left(&self) -> Range<u64> {
        self.left.clone()
    }

    fn next_nonce(&mut self) -> Result<u64, Refusal> {
        match self.left.next() {
            Some(nonce) => Ok(nonce),
            None => self.new_batch(),
        }
    }

    /// Raises the store for a batch and gives out its first nonce. A failed power takes the sealer down, a full store does not.
    fn new_batch(&mut self) -> Result<u64, Refusal> {
        match self.store.raise() {
            Ok(mark) => {
                let first = mark.wrapping_mul(BATCH); // below 2^63, since marks that are given are below 2^53
                self.left = first.wrapping_add(1)..first.wrapping_add(BATCH);
                Ok(first)
            }
            Err(fault) => {
                self.live = fault != RaiseFault::PowerFailed;
                Err(fault.into())
            }
        }
    }
}

/// What stands beside a ciphertext.
#[derive(Clone, Debug, PartialEq, Eq)]
pub struct Sealed {
    /// The nonce.
    pub nonce: u64,
    /// How many bytes the tag has.
    pub tag_len: usize,
    /// The tag, then zeros.
    pub tag: [u8; 16],
}

impl Sealed {
    /// The tag without the zeros.
    pub fn tag(&self) -> &[u8] {
        self.tag.get(..self.tag_len).unwrap_or(&self.tag)
    }
}

/// A sheet that is being sealed. It needs nothing of its sealer any more but the cipher that it is lent.
#[derive(Debug)]
pub struct Draft {
    nonce: u64,
    tag_len: usize,
    keys: TagKeys,
    header: Vec<u8>,
    ciphertext: Vec<u8>,
}

impl Draft {
    fn new(cipher: &dyn BlockCipher, nonce: u64, tag_len: usize) -> Self {
        Draft { nonce, tag_len, keys: TagKeys::new(cipher, nonce), header: Vec::new(), ciphertext: Vec::new() }
    }

    /// The nonce that the draft is under.
    pub fn nonce(&self) -> u64 {
        self.nonce
    }

    /// Appends a piece of header; 1 where it would pass the limit.
    pub fn head(&mut self, piece: &[u8]) -> Result<(), Refusal> {
        limits::header(self.header.len().saturating_add(piece.len()))?;
        self.header.extend_from_slice(piece);
        Ok(())
    }

    /// Appends a piece of message and writes its ciphertext to `out`; 3 where `out` has another length, 2 where the message would pass the
    /// limit. The cipher should be the sealer's.
    pub fn body(&mut self, cipher: &dyn BlockCipher, piece: &[u8], out: &mut [u8]) -> Result<(), Refusal> {
        same_length(piece, out)?;
        limits::message(self.ciphertext.len().saturating_add(piece.len()))?;
        let stream = keystream::stretch(cipher, self.nonce, self.ciphertext.len() as u64, piece.len());
        let sealed = piece.iter().zip(stream).map(|(byte, key)| byte ^ key);
        for (place, byte) in out.iter_mut().zip(sealed) {
            *place = byte;
        }
        self.ciphertext.extend_from_slice(out);
        Ok(())
    }

    /// Ends the draft and gives what stands beside the ciphertext.
    pub fn finish(self) -> Sealed {
        let mut tag = self.keys.tag(&self.header, &self.ciphertext);
        for byte in tag.iter_mut().skip(self.tag_len) {
            *byte = 0;
        }
        Sealed { nonce: self.nonce, tag_len: self.tag_len, tag }
    }
}

/// 3 where an output has another length than the piece.
fn same_length(piece: &[u8], out: &[u8]) -> Result<(), Refusal> {
    if out.len() == piece.len() { Ok(()) } else { Err(Refusal::plain(OUTPUT_LENGTH)) }
}

#[cfg(test)]
mod tests {
    use super::*;
    use crate::chm;
    use crate::limits::{HEADER_MAX, MESSAGE_MAX};
    use crate::samples::{Numbers, ciphers, practice};
    use crate::store::{Register, Strip};

    fn sealer<S: MarkStore>(store: S) -> Sealer<S> {
        Sealer::new(Box::new(practice(0x77)), store)
    }

    fn answer<S: MarkStore>(sealer: &mut Sealer<S>) -> Result<u64, u8> {
        sealer.begin(16).map(|draft| draft.nonce()).map_err(|refusal| refusal.number)
    }

    #[test]
    fn the_table_of_the_document() {
        let mut sealer = sealer(Register::new(5, 2, 0x00));
        assert_eq!(sealer.store().reading().mark, 5);
        assert_eq!(answer(&mut sealer), Ok(5_120));
        assert_eq!(sealer.store().reading().power, 1);
        for nonce in 5_121..=6_143 {
            assert_eq!(answer(&mut sealer), Ok(nonce));
        }
        assert_eq!(sealer.store().reading().mark, 6);
        assert_eq!(answer(&mut sealer), Ok(6_144));
        assert_eq!(sealer.store().reading().power, 0);
        assert_eq!(answer(&mut sealer), Ok(6_145));
        sealer.restart(1, 0x00);
        for nonce in 7_168..=8_191 {
            assert_eq!(answer(&mut sealer), Ok(nonce));
        }
        assert_eq!(answer(&mut sealer), Err(23));
        assert_eq!(sealer.store().reading().mark, 9);
        assert_eq!(answer(&mut sealer), Err(21));
        sealer.restart(1, 0x00);
        assert_eq!(answer(&mut sealer), Ok(9_216));
    }

    #[test]
    fn a_bad_tag_length_is_told_first_and_uses_nothing() {
        let mut sealer = sealer(Register::new(0, 0, 0xff));
        for tag_len in [0, 11, 17, usize::MAX] {
            assert_eq!(sealer.begin(tag_len).err(), Some(Refusal::plain(4)));
        }
        assert!(sealer.is_live() && sealer.store().reading().on);
        assert_eq!(answer(&mut sealer), Err(23));
        assert_eq!(sealer.begin(11).err(), Some(Refusal::plain(4)));
        assert_eq!(answer(&mut sealer), Err(21));
    }

    #[test]
    fn full_leaves_the_sealer_live() {
        let mut sealer = sealer(Register::new(1 << 53, 7, 0));
        for _ in 0..3 {
            assert_eq!(answer(&mut sealer), Err(22));
            assert!(sealer.is_live() && sealer.store().reading().on);
        }
        sealer.restart(7, 0);
        assert_eq!(answer(&mut sealer), Err(22));
    }

    #[test]
    fn the_last_batch_is_below_2_to_the_63() {
        let mut sealer = sealer(Register::new((1 << 53) - 1, 7, 0));
        for nonce in (1 << 63) - 1_024..1 << 63 {
            assert_eq!(answer(&mut sealer), Ok(nonce));
        }
        assert_eq!(answer(&mut sealer), Err(22));
    }

    #[test]
    fn a_store_that_is_off_takes_the_sealer_down() {
        let mut store = Register::new(3, 0, 0xff);
        assert!(store.raise().is_err());
        let mut sealer = sealer(store);
        assert!(sealer.is_live());
        assert_eq!(answer(&mut sealer), Err(23));
        assert_eq!(answer(&mut sealer), Err(21));
        sealer.restart(1, 0xff);
        assert_eq!(answer(&mut sealer), Ok(3 * 1_024));
    }

    #[test]
    fn over_a_strip() {
        let mut cells = [0x00, 0xff, 0xff];
        let mut sealer = sealer(Strip::new(&mut cells, 1, 0x01));
        for nonce in 1_024..2_048 {
            assert_eq!(answer(&mut sealer), Ok(nonce));
        }
        assert_eq!(answer(&mut sealer), Err(23));
        sealer.restart(1, 0x01);
        assert_eq!(answer(&mut sealer), Err(22));
        assert_eq!(cells, [0x00, 0x00, 0x01]);
    }

    #[test]
    fn however_a_sheet_is_cut_it_is_the_published_one() {
        let mut numbers = Numbers::new(7);
        for cipher in ciphers() {
            let mut sealer = Sealer::new(cipher, Register::new(40, 9, 0));
            for round in 0..20 {
                let (header_len, message_len) = (numbers.below(300), numbers.below(9_000));
                let (header, message) = (numbers.bytes(header_len), numbers.bytes(message_len));
                let tag_len = 12 + round % 5;
                let mut draft = sealer.begin(tag_len).expect("there is power");
                let (mut headed, mut bodied, mut written) = (0, 0, Vec::new());
                while headed < header.len() || bodied < message.len() {
                    let piece = &header[headed..(headed + numbers.below(100)).min(header.len())];
                    draft.head(piece).expect("the header is short");
                    headed += piece.len();
                    let piece = &message[bodied..(bodied + numbers.below(3_000)).min(message.len())];
                    let mut out = vec![0; piece.len()];
                    draft.body(sealer.cipher(), piece, &mut out).expect("the message is short");
                    bodied += piece.len();
                    written.extend(out);
                }
                let sealed = draft.finish();
                let (ciphertext, tag) = chm::seal(sealer.cipher(), sealed.nonce, tag_len, &header, &message);
                assert_eq!(written, ciphertext);
                assert_eq!(sealed.tag(), tag);
                assert_eq!(sealed.tag[tag_len..], vec![0; 16 - tag_len]);
                assert_eq!(chm::check(sealer.cipher(), sealed.nonce, &header, &written, sealed.tag()), Ok(()));
            }
        }
    }

    #[test]
    fn header_limit() {
        let mut sealer = sealer(Register::new(0, 9, 0));
        let mut draft = sealer.begin(12).expect("there is power");
        assert_eq!(draft.head(&[1; HEADER_MAX + 1]), Err(Refusal::plain(1)));
        assert_eq!(draft.head(&[1; HEADER_MAX - 1]), Ok(()));
        assert_eq!(draft.head(&[1; 2]), Err(Refusal::plain(1)));
        assert_eq!(draft.head(&[1]), Ok(()));
        assert_eq!(draft.head(&[]), Ok(()));
        assert_eq!(draft.head(&[1]), Err(Refusal::plain(1)));
        assert_eq!(draft.finish().tag(), chm::seal(sealer.cipher(), 0, 12, &[1; HEADER_MAX], &[]).1);
    }

    #[test]
    fn message_limit_and_output_length() {
        let mut sealer = sealer(Register::new(0, 9, 0));
        let message = vec![1; MESSAGE_MAX];
        let mut draft = sealer.begin(16).expect("there is power");
        let mut out = vec![0xaa; MESSAGE_MAX + 1];
        let too_long = vec![1; MESSAGE_MAX + 1];
        assert_eq!(draft.body(sealer.cipher(), &too_long, &mut out[..5]), Err(Refusal::plain(3)));
        assert_eq!(draft.body(sealer.cipher(), &[], &mut out[..1]), Err(Refusal::plain(3)));
        assert_eq!(draft.body(sealer.cipher(), &too_long, &mut out), Err(Refusal::plain(2)));
        assert!(out.iter().all(|byte| *byte == 0xaa));
        let (front, last) = out[..MESSAGE_MAX].split_at_mut(MESSAGE_MAX - 1);
        assert_eq!(draft.body(sealer.cipher(), &message[1..], front), Ok(()));
        assert_eq!(draft.body(sealer.cipher(), &[1; 2], &mut [0; 2]), Err(Refusal::plain(2)));
        assert_eq!(draft.body(sealer.cipher(), &[1], last), Ok(()));
        assert_eq!(draft.body(sealer.cipher(), &[], &mut []), Ok(()));
        assert_eq!(draft.body(sealer.cipher(), &[1], &mut [0]), Err(Refusal::plain(2)));
        let (ciphertext, tag) = chm::seal(sealer.cipher(), 0, 16, &[], &message);
        assert!(out[..MESSAGE_MAX] == ciphertext);
        assert_eq!(draft.finish().tag(), tag);
    }

    #[test]
    fn open_drafts_go_on() {
        let mut sealer = sealer(Register::new(0, 1, 0));
        let mut draft = sealer.begin(16).expect("there is power");
        sealer.restart(0, 0);
        assert_eq!(answer(&mut sealer), Err(23));
        assert_eq!(draft.head(b"on"), Ok(()));
        assert_eq!(draft.finish().tag(), chm::seal(sealer.cipher(), 0, 16, b"on", &[]).1);
    }

    /// The documents leave the tag open here: the hash keys and the tag's block are the sealer's, the ciphertext is what was written.
    #[test]
    fn a_body_with_another_cipher() {
        let [_, other, own] = ciphers().try_into().unwrap_or_else(|_| unreachable!("there are three"));
        let mut sealer = Sealer::new(own, Register::new(0, 1, 0));
        let mut draft = sealer.begin(16).expect("there is power");
        let mut out = [0; 20];
        draft.body(other.as_ref(), &[7; 20], &mut out).expect("the message is short");
        assert_eq!(out, *chm::seal(other.as_ref(), 0, 16, &[], &[7; 20]).0);
        assert_eq!(chm::check(sealer.cipher(), 0, &[], &out, draft.finish().tag()), Ok(()));
    }

    #[test]
    fn one_call_refuses_in_order() {
        let mut sealer = sealer(Register::new(0, 0, 0xff));
        let (long_header, long_message) = (vec![0; HEADER_MAX + 1], vec![0; MESSAGE_MAX + 1]);
        let mut number = |tag_len, header: &[u8], message: &[u8], out: usize| {
            let mut out = vec![0xaa; out];
            let answer = sealer.seal(tag_len, header, message, &mut out).map_err(|refusal| refusal.number);
            assert!(out.iter().all(|byte| *byte == 0xaa));
            answer.err()
        };
        assert_eq!(number(17, &long_header, &long_message, 0), Some(4));
        assert_eq!(number(16, &long_header, &long_message, 0), Some(1));
        assert_eq!(number(16, &long_header[1..], &long_message, 0), Some(3));
        assert_eq!(number(16, &long_header[1..], &long_message, MESSAGE_MAX + 1), Some(2));
        assert_eq!(number(16, &long_header[1..], &long_message[1..], MESSAGE_MAX), Some(23));
        assert_eq!(number(16, &[], &[], 0), Some(21));
        assert_eq!(number(16, &[], &[], 1), Some(3));
    }

    #[test]
    fn one_call_is_the_draft() {
        let mut sealer = sealer(Register::new(8, 1, 0));
        let mut out = [0; 7];
        let sealed = sealer.seal(13, b"head", b"message", &mut out).expect("there is power");
        let (ciphertext, tag) = chm::seal(sealer.cipher(), 8 * 1_024, 13, b"head", b"message");
        assert_eq!((sealed.nonce, sealed.tag_len, sealed.tag()), (8 * 1_024, 13, tag.as_slice()));
        assert_eq!(out, *ciphertext);
    }
}
