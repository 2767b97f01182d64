//! The port's answers, as the static library lays them out.

use crate::frames::FRAME;
use crate::random::Random;
use std::fmt::{self, Debug, Formatter};

/// What the port answered. Any bit of it can be spoiled.
pub trait Answer {
    /// Flips one bit of one field; each field is as likely as any other.
    fn flip(&mut self, bit: usize);
}

/// An answer that begins with document 01's number; of a refusal, all other fields are zero.
pub trait Told: Copy + Debug + PartialEq {
    fn number(&self) -> u8;
    fn refused(number: u8) -> Self;
}

/// What one place of a lent buffer holds.
pub trait Place: Answer + Copy + Debug + PartialEq {
    /// Anything that the buffer could hold before the call.
    fn drawn(random: &mut Random) -> Self;
}

/// An f32 that is compared and shown by its bits.
#[derive(Clone, Copy, Default)]
#[repr(transparent)]
pub struct Bits(pub f32);

impl PartialEq for Bits {
    fn eq(&self, other: &Self) -> bool {
        self.0.to_bits() == other.0.to_bits()
    }
}

impl Debug for Bits {
    fn fmt(&self, f: &mut Formatter) -> fmt::Result {
        write!(f, "{:?} (bits {:08X})", self.0, self.0.to_bits())
    }
}

/// A bool as the byte that it is in memory, so that a spoiled one is no undefined behaviour.
#[derive(Clone, Copy, Debug, Default, PartialEq)]
#[repr(transparent)]
pub struct Flag(pub u8);

impl From<bool> for Flag {
    fn from(flag: bool) -> Self {
        Self(u8::from(flag))
    }
}

macro_rules! whole_numbers {
    ($($kind:ident)*) => {$(
        impl Answer for $kind {
            fn flip(&mut self, bit: usize) {
                *self ^= 1 << (bit % $kind::BITS as usize);
            }
        }
    )*};
}

whole_numbers! { u8 u16 u32 usize i8 i32 }

impl Answer for Bits {
    fn flip(&mut self, bit: usize) {
        let mut bits = self.0.to_bits();
        bits.flip(bit);
        self.0 = f32::from_bits(bits);
    }
}

impl Answer for Flag {
    fn flip(&mut self, bit: usize) {
        self.0.flip(bit);
    }
}

impl<A: Answer> Answer for [A] {
    fn flip(&mut self, bit: usize) {
        let length = self.len();
        self[bit % length].flip(bit / length);
    }
}

impl<A: Answer, const N: usize> Answer for [A; N] {
    fn flip(&mut self, bit: usize) {
        self[..].flip(bit);
    }
}

/// Every other f32 is a NaN, and no two NaNs are told apart but by their bits.
impl Place for Bits {
    fn drawn(random: &mut Random) -> Self {
        let bits = random.word();
        let nan = (bits & 1) * 0x7F80_0000;
        Self(f32::from_bits(bits | nan))
    }
}

impl Place for Flag {
    fn drawn(random: &mut Random) -> Self {
        Self(random.byte() & 1)
    }
}

impl Place for u8 {
    fn drawn(random: &mut Random) -> Self {
        random.byte()
    }
}

impl Place for u16 {
    fn drawn(random: &mut Random) -> Self {
        random.word() as u16
    }
}

impl Place for i32 {
    fn drawn(random: &mut Random) -> Self {
        random.word() as i32
    }
}

macro_rules! told {
    ($($name:ident { $($field:ident: $kind:ty),* $(,)? })*) => {$(
        #[derive(Clone, Copy, Debug, Default, PartialEq)]
        #[repr(C)]
        pub struct $name {
            pub number: u8,
            $(pub $field: $kind,)*
        }

        impl Answer for $name {
            fn flip(&mut self, bit: usize) {
                let mut fields: Vec<&mut dyn Answer> = vec![&mut self.number];
                $(fields.push(&mut self.$field);)*
                let count = fields.len();
                fields[bit % count].flip(bit / count);
            }
        }

        impl Told for $name {
            fn number(&self) -> u8 {
                self.number
            }

            fn refused(number: u8) -> Self {
                Self { number, ..Self::default() }
            }
        }
    )*};
}

told! {
    FrameKindTold {
        echo: Flag,
    }
    SocTold {
        total_voltage: Bits,
        current: Bits,
        soc_percent: Bits,
    }
    SocCountsTold {
        total_voltage: u16,
        current: i32,
        soc_percent: u16,
    }
    CellVoltageRangeTold {
        highest_voltage: Bits,
        highest_cell: u8,
        lowest_voltage: Bits,
        lowest_cell: u8,
    }
    CellVoltageRangeCountsTold {
        highest_voltage: u16,
        highest_cell: u8,
        lowest_voltage: u16,
        lowest_cell: u8,
    }
    TemperatureRangeTold {
        highest_temperature: i8,
        highest_sensor: u8,
        lowest_temperature: i8,
        lowest_sensor: u8,
    }
    MosfetStatusTold {
        mode: u8,
        charging_mosfet: Flag,
        discharging_mosfet: Flag,
        bms_cycles: u8,
        capacity_ah: Bits,
    }
    MosfetStatusCountsTold {
        mode: u8,
        charging_mosfet: Flag,
        discharging_mosfet: Flag,
        bms_cycles: u8,
        capacity_ah: u32,
    }
    StatusTold {
        cells: u8,
        temperature_sensors: u8,
        charger_running: Flag,
        load_running: Flag,
        di1: Flag,
        di2: Flag,
        di3: Flag,
        di4: Flag,
        do1: Flag,
        do2: Flag,
        do3: Flag,
        do4: Flag,
        cycles: u16,
    }
    PackTold {
        agrees: Flag,
        difference: i32,
    }
    ListTold {
        count: usize,
    }
    MissingTold {
        missing: usize,
    }
    CompletedTold {
        complete: Flag,
    }
}

/// The number that a request answers, then the 13 bytes of its output.
pub type Sent = [u8; 1 + FRAME];

/// A list's answer, and the whole buffer after the call: the places lent, and those behind them.
pub struct Left<P> {
    pub told: ListTold,
    pub buffer: Vec<P>,
}

impl<P: Place> Answer for Left<P> {
    fn flip(&mut self, bit: usize) {
        if bit % 2 == 0 {
            self.told.flip(bit / 2);
        } else {
            self.buffer.flip(bit / 2);
        }
    }
}
