//! Checksums and labels of the proved library, against a checksum bit by bit and a label laid out by hand from the document's table.
use paritylocker::label::{self, Label};
use paritylocker::Refusal;

/// CRC-32C, bit by bit.
fn crc(bytes: &[u8]) -> u32 {
    let mut c = u32::MAX;
    for &b in bytes {
        c ^= u32::from(b);
        for _ in 0..8 {
            c = if c & 1 == 1 {
                c >> 1 ^ 0x82f6_3b78
            } else {
                c >> 1
            };
        }
    }
    !c
}

fn sealed(mut sector: [u8; 512]) -> [u8; 512] {
    let sum = crc(&sector[..508]);
    sector[508..].copy_from_slice(&sum.to_le_bytes());
    sector
}

/// The document's table.
fn laid_out(l: &Label) -> [u8; 512] {
    let mut s = [0u8; 512];
    s[..8].copy_from_slice(b"SHELFRS1");
    s[8] = 1;
    s[10] = l.k;
    s[11] = l.m;
    s[12] = l.slot;
    s[13] = l.c;
    s[16..20].copy_from_slice(&l.sectors.to_le_bytes());
    s[20..28].copy_from_slice(&l.shelf.to_le_bytes());
    s[28..36].copy_from_slice(&l.generation.to_le_bytes());
    s[36..40].copy_from_slice(&l.out.to_le_bytes());
    s[40] = l.rebuilding;
    s[44..48].copy_from_slice(&l.mark.to_le_bytes());
    sealed(s)
}

fn worked() -> Label {
    Label {
        k: 4,
        m: 2,
        slot: 0,
        c: 8,
        sectors: 1090,
        shelf: 0x1122_3344_5566_7788,
        generation: 1,
        out: 0,
        rebuilding: 255,
        mark: 0,
    }
}

#[test]
fn checksums() {
    assert_eq!(label::crc32c(b"123456789"), 0xe306_9283);
    assert_eq!(label::crc32c(&[0; 512]), 0x30fc_edc0);
    let bytes: Vec<u8> = (0..5000u32)
        .map(|i| (i.wrapping_mul(2_654_435_761) >> 24) as u8)
        .collect();
    for len in (0..200).chain([507, 508, 511, 512, 4095, 4096, 5000]) {
        assert_eq!(
            label::crc32c(&bytes[..len]),
            crc(&bytes[..len]),
            "{len} bytes"
        );
    }
}

#[test]
fn labels_there_and_back() {
    let mut sector = [0xaa; 512];
    assert_eq!(label::encode(&worked(), &mut sector), Ok(()));
    assert_eq!(sector[508..], [0x7f, 0x9b, 0x9b, 0xd8]);
    assert_eq!(
        label::encode(
            &Label {
                slot: 1,
                ..worked()
            },
            &mut sector
        ),
        Ok(())
    );
    assert_eq!(sector[508..], [0xcf, 0x6b, 0xad, 0x96]);
    for l in [
        worked(),
        Label {
            k: 16,
            m: 3,
            slot: 18,
            c: 1,
            sectors: 1 << 24,
            shelf: u64::MAX,
            generation: (1 << 63) - 1,
            out: 1 << 18,
            rebuilding: 18,
            mark: 7,
        },
        Label {
            k: 2,
            m: 1,
            slot: 2,
            c: 4,
            sectors: 70,
            shelf: 0,
            generation: 2,
            out: 0b111,
            rebuilding: 255,
            mark: 0,
        },
        Label {
            k: 2,
            m: 1,
            slot: 0,
            c: 4,
            sectors: 70,
            shelf: 9,
            generation: 3,
            out: 0b001,
            rebuilding: 0,
            mark: 1,
        },
    ] {
        assert_eq!(label::encode(&l, &mut sector), Ok(()), "{l:?}");
        assert_eq!(sector, laid_out(&l), "{l:?}");
        let place = (l.generation % 2) as u8;
        assert_eq!(label::decode(l.slot, place, &sector), Ok(l.clone()));
        assert_eq!(
            label::decode(l.slot, 1 - place, &sector),
            Err(Refusal::NO_LABEL)
        );
        assert_eq!(
            label::decode(l.slot, place + 2, &sector),
            Err(Refusal::NO_LABEL)
        );
        assert_eq!(
            label::decode(l.slot + 1, place, &sector),
            Err(Refusal::NO_LABEL)
        );
        for i in 0..512 {
            let mut other = sector;
            other[i] ^= 0x10;
            assert_eq!(
                label::decode(l.slot, place, &other),
                Err(Refusal::NO_LABEL),
                "byte {i}"
            );
        }
    }
}

#[test]
fn what_is_no_label() {
    assert_eq!(label::decode(0, 0, &[0; 512]), Err(Refusal::NO_LABEL));
    assert_eq!(label::decode(0, 1, &[0; 511]), Err(Refusal::BAD_IMAGE));
    let wrong = [
        Label { k: 1, ..worked() },
        Label { k: 17, ..worked() },
        Label { m: 0, ..worked() },
        Label { m: 4, ..worked() },
        Label {
            slot: 6,
            ..worked()
        },
        Label { c: 3, ..worked() },
        Label {
            sectors: 73,
            ..worked()
        },
        Label {
            sectors: (1 << 24) + 1,
            ..worked()
        },
        Label {
            generation: 0,
            ..worked()
        },
        Label {
            generation: 1 << 63,
            ..worked()
        },
        Label {
            out: 1 << 6,
            ..worked()
        },
        Label {
            mark: 1,
            ..worked()
        },
        Label {
            rebuilding: 2,
            ..worked()
        },
        Label {
            rebuilding: 6,
            out: 1,
            ..worked()
        },
        Label {
            rebuilding: 2,
            out: 4,
            mark: 129,
            ..worked()
        },
    ];
    for l in wrong {
        let mut sector = [0xaa; 512];
        assert_eq!(
            label::encode(&l, &mut sector),
            Err(Refusal::BAD_IMAGE),
            "{l:?}"
        );
        assert_eq!(sector, [0xaa; 512], "{l:?}");
        let place = (l.generation % 2) as u8;
        assert_eq!(
            label::decode(l.slot, place, &laid_out(&l)),
            Err(Refusal::NO_LABEL),
            "{l:?}"
        );
    }
    let mut stale = laid_out(&worked());
    stale[300] = 1;
    assert_eq!(label::decode(0, 1, &sealed(stale)), Err(Refusal::NO_LABEL));
    let mut short = [0xaa; 500];
    assert_eq!(
        label::encode(&worked(), &mut short),
        Err(Refusal::BAD_IMAGE)
    );
    assert_eq!(short, [0xaa; 500]);
}
