use bridgecrumb::Edition;

fn main() -> Result<(), bridgecrumb::Error> {
    let card = [4, 3, 7, 0, 11, 0, 13, 0];
    let mut stripe = [0x11, 0x22, 0x44, 0x88, 0, 0, 0];
    bridgecrumb::encode(Edition::First, &card, 1, &mut stripe)?;
    stripe[..3].fill(0);
    assert_eq!(bridgecrumb::rebuild(Edition::First, &card, 1, 0b111, &mut stripe)?, 3);
    let mut file = [0; 200];
    let len = bridgecrumb::write_record(&card, 1, 0, &stripe, &mut file)?;
    assert_eq!(bridgecrumb::body(&file[..len], 3)?, [0x88]);
    Ok(())
}
