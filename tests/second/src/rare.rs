//! Nets on which a shortcut of the search for forward covers (document 02, E6) gives a wrong answer at some period;
//! random nets seldom tell.

/// A net without a section, a k, and the least period that a forward cover meets.
pub struct Rare {
    pub net: Vec<u8>,
    pub k: u32,
    pub least: u32,
}

/// A cut found for a gate at a smaller label is taken again at a larger one for its height alone: the larger label
/// leaves less room for the d of the cut's members. The first net is then labelled 0 1 1 0 1 for period 1.
const KEPT_CUTS: [(u32, u32, &str); 6] = [
    (3, 2, "0105021a1a030105030301803430040400020245080000021313010100010301540e0e020000010202800104030002"),
    (3, 2, "01060107070506000103027f0303060602020203020102010e030300030301080707010606030102cb030200020206010401"),
    (3, 2, "010602030003060e03020306020d03010506030f07070506030103017f07070204050302038007050000000203bb0003010103"),
    (3, 1, "010503070600030501037f0303040402030807070501050202039c070505030001013507000000005c0100020001010202"),
    (2, 1, "0206020303070301020703000505070301060202070303010002030403000505080301070501080000010402"),
    (4, 2, "01070307050205020201fe03000000070707000401030201e30700000702bf0707060700010201fe07050704000303800706020207020180010501010102010301"),
];

/// Labels are raised on trial, and members get the room for their d that the raised labels leave, not that of the
/// labels which stand.
const TRIALS: [(u32, u32, &str); 5] = [
    (3, 1, "0106010303060301030f030200000309030001040f0303020502010703030003020108070304060402027f010303"),
    (3, 2, "010701030303050101090303040201010b0301070602050707020507020301a1030100000201070601030503032107070602010102026d010701"),
    (4, 1, "010601070602030601028003010606010803010106010c0704000605034a07050403040101c50707050002020301fe010303"),
    (4, 1, "0e0a0103000f0a0603030e100101060300110806030310120101060300130606030312140101060300150406030314160101060300170206030116010106000e"),
    (3, 1, "0107020303060003030d03030700010204070701060301020398070702020002020149030302040101040303050502010e070103030503f300060001"),
];

/// The least labels for period 1 are no labels for period 2: gate 6 has -1 and a member with d 2.
const SMALLER_PERIOD: (u32, u32, &str) = (
    2,
    1,
    "010601010000020100000101000002030301020202080303010302020603000405080006",
);

/// The net that a kept cut labels 0 1 1 0 1 for period 1.
pub fn kept_cut() -> Rare {
    rare(KEPT_CUTS[0])
}

pub fn smaller_period() -> Rare {
    rare(SMALLER_PERIOD)
}

pub fn all() -> Vec<Rare> {
    let listed = KEPT_CUTS.into_iter().chain(TRIALS).map(rare);
    listed.chain([smaller_period()]).collect()
}

fn rare((k, least, digits): (u32, u32, &str)) -> Rare {
    let byte = |at| u8::from_str_radix(&digits[at..at + 2], 16).expect("two hexadecimal digits");
    let net = (0..digits.len()).step_by(2).map(byte).collect();
    Rare { net, k, least }
}
