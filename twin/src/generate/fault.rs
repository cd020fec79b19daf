//! The faults a trace can have, by name, each with the number that its rule gives.

macro_rules! faults {
    ($($fault:ident $name:literal $number:expr;)*) => {
        #[derive(Clone, Copy, PartialEq, Eq, Debug)]
        pub enum Fault { $($fault),* }

        impl Fault {
            pub const ALL: &'static [Fault] = &[$(Fault::$fault),*];

            pub fn name(self) -> &'static str {
                match self { $(Fault::$fault => $name),* }
            }

            /// The number that a trace with this one fault ends with; none where chance decides.
            pub fn number(self) -> Option<u8> {
                match self { $(Fault::$fault => $number),* }
            }
        }
    };
}

faults! {
    // test 3, by what breaks it
    KindTooLarge "kind-too-large" Some(3);
    VcTooLarge "vc-too-large" Some(3);
    DestinationTooLarge "destination-too-large" Some(3);
    CreditTooLarge "credit-too-large" Some(3);
    BodyWithDestination "body-with-destination" Some(3);
    IdleWithVc "idle-with-vc" Some(3);
    IdleWithDestination "idle-with-destination" Some(3);
    IdleWithPayload "idle-with-payload" Some(3);
    PortBeyond "port-beyond" Some(3);
    // the other tests of a cycle
    CreditPastRoom "credit-past-room" Some(6);
    BodyOutOfTurn "body-out-of-turn" Some(4);
    HeadOutOfTurn "head-out-of-turn" Some(4);
    NoSenderCredit "no-sender-credit" Some(5);
    SeveralInCycle "several-in-cycle" None;
    // blocks and the file
    Empty "empty" Some(9);
    ShortBlock "short-block" Some(9);
    ShortAndWrong "short-and-wrong" Some(9);
    NoEnd "no-end" Some(9);
    CheckBit "check-bit" Some(7);
    CheckTooLarge "check-too-large" Some(7);
    CheckAndForm "check-and-form" Some(7);
    BlockKind "block-kind" Some(8);
    BlockNumber "block-number" Some(8);
    CountZero "count-zero" Some(8);
    CountAbove "count-above" Some(8);
    CountBelow "count-below" Some(8);
    CountElsewhere "count-elsewhere" Some(8);
    UnusedByte "unused-byte" Some(8);
    SecondConfiguration "second-configuration" Some(8);
    CyclesFirst "cycles-first" Some(8);
    EndFirst "end-first" Some(8);
    EndTotal "end-total" Some(8);
    FewAfterEnd "few-after-end" Some(8);
    BlockAfterEnd "block-after-end" Some(8);
    FormAndField "form-and-field" Some(8);
    Field "field" Some(1);
    Fields "fields" Some(1);
    // whatever comes of it
    FuzzedSealed "fuzzed-sealed" None;
    FuzzedOpen "fuzzed-open" None;
    Garbage "garbage" None;
}

impl Fault {
    pub fn named(name: &str) -> Option<Fault> {
        Fault::ALL
            .iter()
            .copied()
            .find(|fault| fault.name() == name)
    }

    /// Faults of one cycle; the others are faults of the file.
    pub fn is_of_cycle(self) -> bool {
        (self as usize) <= Fault::SeveralInCycle as usize
    }

    pub fn of_cycle() -> Vec<Fault> {
        let all = Fault::ALL.iter().copied();
        all.filter(|fault| fault.is_of_cycle()).collect()
    }
}
