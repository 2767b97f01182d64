// Included behind ask.rs, for both sides. What is compiled is the test.

/// The signatures, to the letter.
#[allow(clippy::type_complexity)]
const _: (
    [fn(Address) -> Vec<u8>; 10],
    [fn(Address, bool) -> Vec<u8>; 2],
    fn(Address, f32) -> Vec<u8>,
    [fn() -> usize; 11],
    [fn(u8) -> usize; 2],
    [fn(&[u8]) -> Result<(), Error>; 4],
    (
        fn(&[u8]) -> Result<Soc, Error>,
        fn(&[u8]) -> Result<CellVoltageRange, Error>,
        fn(&[u8]) -> Result<TemperatureRange, Error>,
        fn(&[u8]) -> Result<MosfetStatus, Error>,
        fn(&[u8]) -> Result<Status, Error>,
    ),
    (
        fn(&[u8], u8) -> Result<CellVoltages, Error>,
        fn(&[u8], u8) -> Result<Vec<i32>, Error>,
        fn(&[u8], u8) -> Result<Vec<bool>, Error>,
        fn(&[u8]) -> Result<Vec<ErrorCode>, Error>,
    ),
    (
        fn(&[u8], usize) -> FrameReader,
        fn(&FrameReader) -> bool,
        fn(&FrameReader) -> usize,
        fn(&mut FrameReader, &[u8]) -> Result<(), Error>,
        fn(FrameReader) -> Vec<u8>,
    ),
) = (
    [
        Soc::request,
        CellVoltageRange::request,
        TemperatureRange::request,
        MosfetStatus::request,
        Status::request,
        CellVoltages::request,
        CellTemperatures::request,
        CellBalanceState::request,
        ErrorCode::request,
        BmsReset::request,
    ],
    [SetDischargeMosfet::request, SetChargeMosfet::request],
    SetSoc::request,
    [
        Soc::reply_size,
        CellVoltageRange::reply_size,
        TemperatureRange::reply_size,
        MosfetStatus::reply_size,
        Status::reply_size,
        CellBalanceState::reply_size,
        ErrorCode::reply_size,
        SetDischargeMosfet::reply_size,
        SetChargeMosfet::reply_size,
        SetSoc::reply_size,
        BmsReset::reply_size,
    ],
    [CellVoltages::reply_size, CellTemperatures::reply_size],
    [
        SetDischargeMosfet::decode,
        SetChargeMosfet::decode,
        SetSoc::decode,
        BmsReset::decode,
    ],
    (
        Soc::decode,
        CellVoltageRange::decode,
        TemperatureRange::decode,
        MosfetStatus::decode,
        Status::decode,
    ),
    (
        CellVoltages::decode,
        CellTemperatures::decode,
        CellBalanceState::decode,
        ErrorCode::decode,
    ),
    (
        FrameReader::new,
        FrameReader::is_complete,
        FrameReader::missing,
        FrameReader::push,
        FrameReader::into_bytes,
    ),
);

/// What else a controller may count on: `{:?}`, copies, equal faults, errors among others, voltages as a slice, one
/// address, one delay.
const _: fn(&CellVoltages) -> &[f32] = <CellVoltages as std::ops::Deref>::deref;
const _: fn(&ErrorCode, &ErrorCode) -> bool = <ErrorCode as PartialEq>::eq;
const _: [fn(); 4] = [
    debug::<(Address, FrameReader, Error)>,
    copied::<(MosfetMode, IOState, ErrorCode)>,
    error::<Error>,
    error::<ErrorCode>,
];
const _: () = assert!(Address::Host as u8 == 0x40);
const _: std::time::Duration = MINIMUM_DELAY;
const _: () = assert!(MINIMUM_DELAY.as_micros() == 4_000);
const fn error<T: std::error::Error + Send + Sync + 'static>() {}
const fn debug<T: Debug>() {}
const fn copied<T: Debug + Clone>() {}
