//! Orders, encoding and decoding.

use super::tape::{bit, bytes_for, check_unused};
use super::{Fault, MOST, Refusal, check_bits};

/// An order from 1 to 15.
#[derive(Clone, Copy)]
pub(super) struct Order {
    /// The order itself: so many probes may read together.
    pub t: usize,
    /// The number of shares, 2t + 1.
    pub n: usize,
}

impl Order {
    /// Refusal 6.
    pub fn new(order: u8) -> Result<Self, Refusal> {
        let t = usize::from(order);
        Fault::Order.when(!(1..=15).contains(&t))?;
        Ok(Order { t, n: 2 * t + 1 })
    }

    /// The number of pairs i < j of shares.
    pub fn pairs(self) -> usize {
        self.n * (self.n - 1) / 2
    }

    /// Writes the shares of each secret: its 2t tape bits, then their XOR with the secret.
    pub fn share(self, secrets: &[u8], tape: &[u8], out: &mut [u8]) {
        let mut at = 0;
        for (&secret, shares) in secrets.iter().zip(out.chunks_exact_mut(self.n)) {
            let (last, shares) = shares.split_last_mut().expect("there are n shares");
            let mut sum = secret;
            for share in shares {
                *share = bit(tape, at);
                sum ^= *share;
                at += 1;
            }
            *last = sum;
        }
    }
}

/// Encodes secrets with 2t tape bits each and answers the number of share bits.
pub fn encode(order: u8, secrets: &[u8], tape: &[u8], out: &mut [u8]) -> Result<u32, Refusal> {
    let order = Order::new(order)?;
    let (shares, bits) = (order.n * secrets.len(), 2 * order.t * secrets.len());
    Fault::TooLarge.when(shares > MOST)?;
    Fault::Count.when(tape.len() != bytes_for(bits))?;
    check_bits(&[secrets])?;
    check_unused(tape, bits, secrets.len())?;
    Fault::Buffer.when(out.len() < shares)?;
    order.share(secrets, tape, out);
    Ok(shares as u32)
}

/// Decodes shares, n for each bit, and answers the number of bits.
pub fn decode(order: u8, shares: &[u8], out: &mut [u8]) -> Result<u32, Refusal> {
    let order = Order::new(order)?;
    Fault::TooLarge.when(shares.len() > MOST)?;
    Fault::Count.when(!shares.len().is_multiple_of(order.n))?;
    check_bits(&[shares])?;
    let bits = shares.len() / order.n;
    Fault::Buffer.when(out.len() < bits)?;
    for (bit, shares) in out.iter_mut().zip(shares.chunks_exact(order.n)) {
        *bit = shares.iter().fold(0, |sum, share| sum ^ share);
    }
    Ok(bits as u32)
}
