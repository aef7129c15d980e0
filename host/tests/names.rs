//! The names of outputs and of failed parts. The numbers are typed from document 01.

use degvuurel::{Condition, Outputs};

/// "Outputs are nine bits, bit 0 first: VF, VI, NI, RF, R+, S1, S2, S3, S4."
#[test]
fn outputs_have_their_bits_and_names() {
    let table = [
        (Outputs::NONE, 0, ""),
        (Outputs::VF, 1, "VF"),
        (Outputs::VI, 2, "VI"),
        (Outputs::NI, 4, "NI"),
        (Outputs::RF, 8, "RF"),
        (Outputs::R_PLUS, 16, "R+"),
        (Outputs::S1, 32, "S1"),
        (Outputs::S2, 64, "S2"),
        (Outputs::S3, 128, "S3"),
        (Outputs::S4, 256, "S4"),
    ];
    assert_eq!(table[1..].iter().map(|row| row.0).collect::<Vec<_>>(), Outputs::ALL);
    for (outputs, bits, name) in table {
        assert_eq!((outputs.bits(), outputs.names().collect::<String>()), (bits, name.to_string()));
    }
}

/// "Bits 0 to 3 green, orange, red, OTRO TREN board; bits 4 to 7 sounders S1 to S4; bit 8 power; bit 9 communication."
#[test]
fn failed_parts_have_their_bits_and_names() {
    let table = [
        (Condition::NONE, 0, ""),
        (Condition::GREEN_FAILED, 1, "green"),
        (Condition::ORANGE_FAILED, 2, "orange"),
        (Condition::RED_FAILED, 4, "red"),
        (Condition::BOARD_FAILED, 8, "board"),
        (Condition::S1_FAILED, 16, "S1"),
        (Condition::S2_FAILED, 32, "S2"),
        (Condition::S3_FAILED, 64, "S3"),
        (Condition::S4_FAILED, 128, "S4"),
        (Condition::POWER_FAILED, 256, "power"),
        (Condition::COMMUNICATION_FAILED, 512, "communication"),
    ];
    assert_eq!(table[1..].iter().map(|row| row.0).collect::<Vec<_>>(), Condition::ALL);
    for (condition, bits, name) in table {
        assert_eq!((condition.bits(), condition.names().collect::<String>()), (bits, name.to_string()));
    }
}

/// An assertion that fails tells both the number and the names; a bit without a name shows in the number.
#[test]
fn joined_and_shown() {
    let risk = Outputs::RF | Outputs::R_PLUS | Outputs::S3;
    assert_eq!((risk.bits(), format!("{risk:?}"), risk.to_string()), (152, "Outputs(152: RF, R+, S3)".into(), "000110010".into()));
    assert!(risk.contains(Outputs::NONE) && risk.contains(Outputs::RF | Outputs::S3) && risk.contains(risk));
    assert!(!risk.contains(Outputs::RF | Outputs::S2) && !Outputs::RF.contains(risk));
    assert_eq!((risk | Outputs::RF, Outputs::default()), (risk, Outputs::NONE));
    assert_eq!((risk.without(Outputs::RF | Outputs::VF), Outputs::of(152)), (Outputs::R_PLUS.with(Outputs::S3), risk));
    assert_eq!(format!("{:?} {:?}", Outputs::NONE, Outputs::of(512)), "Outputs(0) Outputs(512)");

    let failed = Condition::BOARD_FAILED | Condition::S1_FAILED;
    assert_eq!((failed.bits(), format!("{failed:?}"), failed.to_string()), (24, "Condition(24: board, S1)".into(), "24".into()));
    let mut grown = failed;
    grown |= Condition::S1_FAILED;
    assert_eq!((grown, failed.without(Condition::S1_FAILED | Condition::S2_FAILED)), (failed, Condition::BOARD_FAILED));
    assert_eq!((Condition::default(), Condition::EVERY_PART_FAILED.bits()), (Condition::NONE, 1023));
    assert_eq!(format!("{:?} {:?}", Condition::NONE, Condition::of(1024)), "Condition(0) Condition(1024)");
    assert!(failed.contains(Condition::S1_FAILED) && !failed.contains(Condition::S1_FAILED | Condition::S2_FAILED));
}
