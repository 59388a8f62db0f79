// The port's exports of the lower crates. Answers that don't fit one number come back in lent words.
// tests/bindings/signatures compares these declarations with the exports.
unsafe extern "C" {
    pub safe fn test_hash_tag(hash: u64) -> u64;
    pub safe fn test_reduce_hash(hash: u64, buckets: usize) -> usize;
    pub safe fn test_packed_control_tag(tag: u64) -> u8;
    pub safe fn test_packed_secondary_tag(tag: u64) -> u16;
    pub safe fn test_zero_byte_high_bits(value: u64) -> u64;
    pub safe fn test_wrapping_mul(a: u64, b: u64) -> u64;
    pub safe fn test_rotate_left_27(hash: u64) -> u64;
    pub safe fn test_mixed_hash(hash: u64) -> u64;
    pub safe fn test_lowest_marked_byte(word: u64) -> usize;
    pub safe fn test_without_lowest_mark(word: u64) -> u64;
    safe fn test_encode_expiry(
        on: bool,
        tick_secs: u64,
        tick_nanos: u32,
        finite: bool,
        secs: u64,
        nanos: u32,
        now_tick: u64,
    ) -> u64;
    pub safe fn test_lives_at_tick(expires_at: u16, now_tick: u64) -> bool;
    pub safe fn test_varint_bytes(value: usize) -> usize;
}

export!(fn test_as_nanos(secs: u64, nanos: u32, out: &mut [u64],) -> ());

export!(fn test_remaining_ttl(
    on: bool,
    tick_secs: u64,
    tick_nanos: u32,
    expires_at: u16,
    now_tick: u64,
    out: &mut [u64],
) -> u64);

export!(fn test_write_varint(output: &mut [u8], value: usize,) -> u64);

export!(fn test_read_varint(input: &[u8], cursor: usize, out: &mut [u64],) -> bool);

export!(fn test_encoded_record_bytes(
    on: bool,
    key_bytes: usize,
    value_bytes: usize,
    out: &mut [u64],
) -> u64);

export!(fn test_append_record(
    rest: &mut [u8],
    on: bool,
    key: &[u8],
    value: &[u8],
    expires_at: u16,
    out: &mut [u64],
) -> u64);

export!(fn test_record_at(bytes: &[u8], on: bool, location: usize, out: &mut [u64],) -> bool);

export!(fn test_same_bytes(a: &[u8], b: &[u8],) -> bool);

export!(fn test_value_slice_len(arena: &[u8], at: usize, len: usize,) -> usize);

// The byte at i of the slice handed out, or 256 past its end.
export!(fn test_value_slice_byte(arena: &[u8], at: usize, len: usize, i: usize,) -> u64);

// Whole seconds and nanoseconds; unlike the Rust's Duration it may hold a second or more in
// its nanoseconds.
pub type Span = (u64, u32);

// What is left of a lifetime.
#[derive(Debug, PartialEq)]
pub enum Left {
    Nothing,
    Never,
    Finite(u64, u64),
    // No answer that the export may give.
    Strange(u64),
}

// The upper and the lower word.
pub fn as_nanos((secs, nanos): Span) -> [u64; 2] {
    let mut out = [0; 2];
    test_as_nanos(secs, nanos, &mut out);
    out
}

pub fn encode_expiry(
    tick: Option<Span>,
    lifetime: Option<Span>,
    now_tick: u64,
) -> Result<u64, u64> {
    let (tick_secs, tick_nanos) = tick.unwrap_or((0, 0));
    let (secs, nanos) = lifetime.unwrap_or((0, 0));
    let (on, finite) = (tick.is_some(), lifetime.is_some());
    let answer = test_encode_expiry(on, tick_secs, tick_nanos, finite, secs, nanos, now_tick);
    if answer < 65_536 {
        Ok(answer)
    } else {
        Err(answer - 65_536)
    }
}

// The number and the words that the export left in out.
pub fn remaining_words(tick: Option<Span>, expires_at: u16, now_tick: u64, out: &mut [u64]) -> u64 {
    let (secs, nanos) = tick.unwrap_or((0, 0));
    test_remaining_ttl(tick.is_some(), secs, nanos, expires_at, now_tick, out)
}

pub fn remaining(tick: Option<Span>, expires_at: u16, now_tick: u64) -> Left {
    let mut out = [0; 2];
    match remaining_words(tick, expires_at, now_tick, &mut out) {
        0 => Left::Nothing,
        1 => Left::Never,
        2 => Left::Finite(out[0], out[1]),
        other => Left::Strange(other),
    }
}

pub fn write_varint(output: &mut [u8], value: usize) -> Result<u64, u64> {
    let answer = test_write_varint(output, value);
    if answer < 1 << 32 {
        Ok(answer)
    } else {
        Err(answer - (1 << 32))
    }
}

pub fn read_varint(input: &[u8], cursor: usize) -> Option<(usize, usize)> {
    let mut out = [0; 2];
    test_read_varint(input, cursor, &mut out).then_some((out[0] as usize, out[1] as usize))
}

pub fn encoded_record_bytes(on: bool, key_bytes: usize, value_bytes: usize) -> Result<u64, u64> {
    let mut out = [0];
    match test_encoded_record_bytes(on, key_bytes, value_bytes, &mut out) {
        0 => Ok(out[0]),
        refusal => Err(refusal),
    }
}

pub fn append_record(
    rest: &mut [u8],
    on: bool,
    key: &[u8],
    value: &[u8],
    expires_at: u16,
) -> Result<u64, u64> {
    let mut out = [0];
    match test_append_record(rest, on, key, value, expires_at, &mut out) {
        0 => Ok(out[0]),
        refusal => Err(refusal),
    }
}

pub fn record_at(records: &[u8], on: bool, location: usize) -> Option<[u64; 8]> {
    let mut out = [0; 8];
    test_record_at(records, on, location, &mut out).then_some(out)
}
